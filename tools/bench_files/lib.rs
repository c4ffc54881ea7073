//! The Rust decoder over a whole recording, under a C name, for tools/bench.
mod celp;

/// Decodes `count` frames from the start, each over the samples of the one before; how many were accepted.
#[no_mangle]
pub unsafe extern "C" fn rust_run(frames: *const u8, count: usize, samples: *mut i16) -> usize {
    let mut native = celp::Native::default();
    let mut accepted = 0;
    for k in 0..count {
        let payload = &*(frames.add(20 * k) as *const [u8; 20]);
        if let Ok(seen) = native.decode(payload) {
            accepted += 1;
            // all that is answered counts, as it does on the other side
            let seen = std::hint::black_box(&seen);
            samples.copy_from_nonoverlapping(seen.pcm.as_ptr(), 320);
        }
    }
    accepted
}
