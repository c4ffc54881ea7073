//! The tables of the fixed core, by their places in a lent set.
use crate::lent::{Part, UnsignedPart};

pub static COS: Part = Part { at: 0, len: 64 };
pub static COS_SLOPE: Part = Part { at: 64, len: 64 };
pub static LSP_MEAN: Part = Part { at: 128, len: 10 };
pub static LSF_MEAN: Part = Part { at: 138, len: 10 };
pub static PITCH_INTERP: Part = Part { at: 148, len: 31 };
pub static OUT_FIR: Part = Part { at: 179, len: 4 };
pub static OUT_IIR: Part = Part { at: 183, len: 3 };
pub static FCB_INDEX_LIMIT: UnsignedPart = UnsignedPart { at: 186, len: 1 };
pub static FCB_CLASS_BASE: UnsignedPart = UnsignedPart { at: 187, len: 6 };
pub static FCB_PULSES: Part = Part { at: 193, len: 5 };
pub static FCB_SHAPE_SEL: Part = Part { at: 198, len: 15 };
pub static FCB_RADIX: Part = Part { at: 213, len: 15 };
pub static FCB_RADIX_INV: Part = Part { at: 228, len: 15 };
pub static FCB_POSITIONS: Part = Part { at: 243, len: 600 };
pub static FCB_SHAPES: Part = Part { at: 843, len: 640 };
pub static FCB_ALT_A: Part = Part { at: 1483, len: 2560 };
pub static FCB_ALT_B: Part = Part { at: 4043, len: 640 };
pub static LSF_CB1: Part = Part { at: 4683, len: 1280 };
