// gain.rs and config.rs as they are, for tools/compare_gain, which puts the folder for CELP.
// config.rs's include_bytes! is shadowed: the tables are the C program's, filled before anything here runs.
#![allow(dead_code)]
macro_rules! include_bytes {
    ($path:literal) => {
        unsafe { &crate::compare_tables }
    };
}
extern "C" {
    static compare_tables: [u8; 3908];
}
#[path = "CELP/config.rs"]
mod config;
#[path = "CELP/gain.rs"]
mod gain;

/// A gain step: the history is changed, the pitch gain written, the code gain returned.
#[no_mangle]
pub extern "C" fn oracle_decode(history: &mut [f32; 4], index: usize, code: &[i16; 80], pitch: &mut i16) -> i16 {
    let mut state = gain::GainState { history: *history };
    let gains = state.decode(index, code);
    *history = state.history;
    *pitch = gains.pitch;
    gains.code
}
