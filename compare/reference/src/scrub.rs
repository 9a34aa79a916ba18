//! Scrubbing a segment a few blocks at a time.

use crate::answer::{ADDRESS_OUT_OF_RANGE, DESCRIPTION_BAD, GOOD, SEGMENT_LENGTH_WRONG};
use crate::segment::{Description, Shape};

/// What a scrub hands back: the answer, the new place, the blocks judged in this
/// call, how many of them had a fault, and the address of the first.
///
/// The address is 0 where none had one. A first block at address 0 may have one too,
/// so the count alone tells whether there is a fault.
#[derive(Clone, Copy, Debug, PartialEq, Eq)]
pub struct Scrubbed {
    pub answer: u64,
    pub next: u64,
    pub judged: u64,
    pub faults: u64,
    pub first_fault: u64,
}

/// Judges the smaller of `blocks` and the blocks left from a place on. A place is the
/// number of blocks before it, so N is one too, with no block left.
pub fn scrub(desc: &Description, segment: &[u8], place: u64, blocks: u64) -> Scrubbed {
    attempt(desc, segment, place, blocks).unwrap_or_else(|answer| Scrubbed {
        answer,
        next: place,
        judged: 0,
        faults: 0,
        first_fault: 0,
    })
}

fn attempt(desc: &Description, segment: &[u8], place: u64, blocks: u64) -> Result<Scrubbed, u64> {
    let shape = desc.shape().ok_or(DESCRIPTION_BAD)?;
    if segment.len() != shape.total {
        return Err(SEGMENT_LENGTH_WRONG);
    }
    let left = desc.n.checked_sub(place).ok_or(ADDRESS_OUT_OF_RANGE)?;
    let judged = blocks.min(left);
    let next = place + judged;
    let (mut faults, mut first_fault) = (0, 0);
    // Blocks of type 0 are gone through as well; there is nothing to find in them.
    if shape.p != 0 {
        let bytes = &segment[place as usize * shape.stored..next as usize * shape.stored];
        for (block, address) in bytes.chunks_exact(shape.stored).zip(desc.w + place..) {
            if has_fault(&shape, block, address) {
                if faults == 0 {
                    first_fault = address;
                }
                faults += 1;
            }
        }
    }
    Ok(Scrubbed {
        answer: GOOD,
        next,
        judged,
        faults,
        first_fault,
    })
}

/// Whether a listing has an interval of this block in state `guard` or `ref`.
#[inline]
fn has_fault(shape: &Shape, block: &[u8], address: u64) -> bool {
    if shape.escaped(block) {
        return false;
    }
    let mut rest = block;
    for _ in 0..shape.intervals {
        let (interval, tail) = rest.split_at(shape.step);
        if shape.fault(interval, address).is_some() {
            return true;
        }
        rest = tail;
    }
    false
}
