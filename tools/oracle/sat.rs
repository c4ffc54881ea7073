
/// As `saturated`, above, which is the source's `sat`; and it says where it was called.
#[track_caller]
pub fn sat(v: i64) -> i64 {
    let s = saturated(v);
    crate::seen(v, s, std::panic::Location::caller());
    s
}
