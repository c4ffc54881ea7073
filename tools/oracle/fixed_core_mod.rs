//! The module list that the source's own mod.rs would have, and modules that ask.
pub const SUBFRAME: usize = 80;
pub const LPC_ORDER: usize = 10;

pub mod calls;
pub mod codebook;
pub mod excitation;
pub mod fixed;
pub mod lsp;
pub mod pitch;
pub mod postfilter;
pub mod probe;
pub mod recordings;
pub mod sure;
pub mod synth;
pub mod tables;
pub mod trace;
