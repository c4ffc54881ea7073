//! The Rust decoder once more, as a crate of its own: its files untouched but for `sat` in fixed.rs, which here also says what it was given and what it gave
//! (tools/oracle/build renames it `saturated` and puts this file's `sat.rs` behind it). What it decodes is the same; in addition it has each subframe's
//! four counts of clipped samples.
use std::cell::RefCell;
use std::panic::Location;

macro_rules! include_bytes {
    ($name:literal) => {
        unsafe { &*crate::lent::BYTE_ROOM.get() }
    };
}

mod celp;
pub mod lent;

/// Whether each call of `sat` changed its value, in the order of the calls, for the files that saturate on a sample's way.
const FILES: [&str; 4] = ["pitch.rs", "core.rs", "synth.rs", "postfilter.rs"];

thread_local! {
    static SEEN: RefCell<[Vec<bool>; 4]> = RefCell::default();
}

/// Called by `sat`. lsp.rs and fixed.rs saturate too, and no sample of theirs.
pub(crate) fn seen(before: i64, after: i64, caller: &Location) {
    if let Some(kind) = FILES.iter().position(|f| caller.file().ends_with(f)) {
        SEEN.with(|s| s.borrow_mut()[kind].push(before != after));
    }
}

#[derive(Default)]
pub struct Decoder(celp::Native);

impl Decoder {
    /// The samples of an accepted frame, and of each subframe the samples clipped in prediction, mixing, synthesis and the output filter.
    pub fn decode(&mut self, payload: &[u8; 20]) -> ([i16; 320], [[usize; 4]; 4]) {
        SEEN.with(|s| *s.borrow_mut() = Default::default());
        let pcm = self.0.decode(payload).unwrap().pcm;
        let flags = SEEN.with(|s| s.take());
        let mut counts = [[0; 4]; 4];
        for (kind, flags) in flags.iter().enumerate() {
            // the output filter saturates three times for a sample, which counts once
            let each = if kind == 3 { 3 } else { 1 };
            assert_eq!(flags.len(), 320 * each, "{} saturates otherwise", FILES[kind]);
            for (n, sample) in flags.chunks(each).enumerate() {
                counts[n / 80][kind] += sample.contains(&true) as usize;
            }
        }
        (pcm, counts)
    }
}
