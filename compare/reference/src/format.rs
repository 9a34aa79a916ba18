//! The format choice.

use crate::answer::{FIELD_INVALID, GOOD, PARAMETER_INVALID};

/// The answer and the type; a refusal comes with type 0.
pub fn format_choice(spt: u64, protect: u64, fmtpinfo: u64, usage: u64) -> (u64, u64) {
    match choose(spt, protect, fmtpinfo, usage) {
        Ok(kind) => (GOOD, kind),
        Err(answer) => (answer, 0),
    }
}

fn choose(spt: u64, protect: u64, fmtpinfo: u64, usage: u64) -> Result<u64, u64> {
    if spt > 7 || protect > 1 || fmtpinfo > 3 || usage > 7 {
        return Err(FIELD_INVALID);
    }
    // The type asked for and the usage it demands.
    let (kind, demanded) = match (fmtpinfo, protect, spt) {
        (0b00, _, _) => (0, 0),
        (0b10, 1, 0 | 1 | 3) => (1, 0),
        (0b11, 1, 1) => (2, 0),
        (0b11, 1, 3) => (3, 1),
        _ => return Err(FIELD_INVALID),
    };
    if usage == demanded {
        Ok(kind)
    } else {
        Err(PARAMETER_INVALID)
    }
}
