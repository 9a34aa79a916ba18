//! Stripes: making parity, rebuilding a lost part, correcting parity.

use crate::answer::{DESCRIPTION_BAD, GOOD, STRIPE_BAD};
use crate::segment::Description;

/// Makes the parity of k members laid end to end.
pub fn parity(desc: &Description, k: u64, members: &[u8], out: &mut [u8]) -> u64 {
    let part = match part_length(desc) {
        Ok(part) => part,
        Err(answer) => return answer,
    };
    if !(1..=16).contains(&k) || members.len() != k as usize * part || out.len() != part {
        return STRIPE_BAD;
    }
    join(members, part, None, out);
    GOOD
}

/// Rebuilds part number `lost` of k members and their parity, parity last. The
/// lost part's own bytes are not used.
pub fn rebuild(desc: &Description, k: u64, lost: u64, parts: &[u8], out: &mut [u8]) -> u64 {
    let part = match part_length(desc) {
        Ok(part) => part,
        Err(answer) => return answer,
    };
    if !(1..=16).contains(&k)
        || lost > k
        || parts.len() != (k as usize + 1) * part
        || out.len() != part
    {
        return STRIPE_BAD;
    }
    join(parts, part, Some(lost as usize), out);
    GOOD
}

/// Corrects the parity for one member's old and new bytes.
pub fn correct(desc: &Description, old: &[u8], new: &[u8], parity: &mut [u8]) -> u64 {
    let part = match part_length(desc) {
        Ok(part) => part,
        Err(answer) => return answer,
    };
    if old.len() != part || new.len() != part || parity.len() != part {
        return STRIPE_BAD;
    }
    for ((byte, before), after) in parity.iter_mut().zip(old).zip(new) {
        *byte ^= before ^ after;
    }
    GOOD
}

/// N × S of a description of type 1 to 3, or the refusal: 1, then 11 for type 0.
fn part_length(desc: &Description) -> Result<usize, u64> {
    let shape = desc.shape().ok_or(DESCRIPTION_BAD)?;
    if shape.p == 0 {
        return Err(STRIPE_BAD);
    }
    Ok(shape.total)
}

/// Writes the exclusive or of all parts but the one left out.
fn join(parts: &[u8], part: usize, left_out: Option<usize>, out: &mut [u8]) {
    let mut used = parts
        .chunks_exact(part)
        .enumerate()
        .filter(|&(number, _)| Some(number) != left_out)
        .map(|(_, bytes)| bytes);
    out.copy_from_slice(used.next().expect("k is at least 1"));
    for bytes in used {
        for (sum, byte) in out.iter_mut().zip(bytes) {
            *sum ^= byte;
        }
    }
}
