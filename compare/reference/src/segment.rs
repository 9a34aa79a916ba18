//! A segment: its description, its sizes, its intervals, and filling it fresh.

use crate::answer::{DESCRIPTION_BAD, GOOD, SEGMENT_LENGTH_WRONG};
use crate::guard::guard;

/// Bytes of the guard, the application tag and the reference tag together.
pub(crate) const FIELD_BYTES: usize = 8;

/// A description as it is handed over: type P, block length B, exponent e,
/// first address W, count N and the bit ATO. Any number may stand in any place;
/// one that does not fit makes the description bad.
#[derive(Clone, Copy, Debug, PartialEq, Eq)]
pub struct Description {
    pub p: u64,
    pub b: u64,
    pub e: u64,
    pub w: u64,
    pub n: u64,
    pub ato: u64,
}

impl Description {
    /// Whether this describes a segment.
    ///
    /// 002 forbids an odd length of user data between fields when a unit is
    /// formatted (520 / 2^3 = 65). The limits of a segment do not repeat that,
    /// so B 520 with e 3, or B 8 with e 3, is a segment here.
    pub fn fits(&self) -> bool {
        self.p <= 3
            && self.ato <= 1
            && (8..=4096).contains(&self.b)
            && self.b.is_multiple_of(8)
            && self.e <= if self.p < 2 { 0 } else { 3 }
            && (1..=65_536).contains(&self.n)
            && u128::from(self.w) + u128::from(self.n) <= 1 << 63
    }

    /// S, the bytes of a stored block; nothing for a bad description.
    pub fn stored_block(&self) -> Option<u64> {
        self.shape().map(|shape| shape.stored as u64)
    }

    /// N × S, the bytes of the segment; nothing for a bad description.
    pub fn segment_length(&self) -> Option<u64> {
        self.shape().map(|shape| shape.total as u64)
    }

    /// The sizes; nothing for a bad description. The greatest total is
    /// 65,536 × 4,160, so no product here can overflow.
    pub(crate) fn shape(&self) -> Option<Shape> {
        if !self.fits() {
            return None;
        }
        let block = self.b as usize;
        let intervals = 1 << self.e;
        let data = block / intervals;
        let step = data + if self.p == 0 { 0 } else { FIELD_BYTES };
        let stored = step * intervals;
        Some(Shape {
            p: self.p,
            block,
            intervals,
            data,
            step,
            stored,
            total: stored * self.n as usize,
        })
    }
}

/// The type and the sizes of a description that fits.
#[derive(Clone, Copy, Debug)]
pub(crate) struct Shape {
    /// Type P, 0 to 3.
    pub p: u64,
    /// B, the user data bytes of a block.
    pub block: usize,
    /// n, the intervals of a block.
    pub intervals: usize,
    /// B / n, the user data bytes of an interval.
    pub data: usize,
    /// The bytes of an interval with its fields.
    pub step: usize,
    /// S, the bytes of a stored block.
    pub stored: usize,
    /// N × S, the bytes of the segment.
    pub total: usize,
}

impl Shape {
    /// Whether any interval of a stored block of type 1 to 3 has the escape.
    pub fn escaped(&self, block: &[u8]) -> bool {
        let mut rest = block;
        for _ in 0..self.intervals {
            let (interval, tail) = rest.split_at(self.step);
            let fields = Fields::of(&interval[self.data..]);
            if fields.application == 0xFFFF && (self.p != 3 || fields.reference == 0xFFFF_FFFF) {
                return true;
            }
            rest = tail;
        }
        false
    }

    /// What a listing and a scrub find wrong with a stored interval of type 1 to 3
    /// whose block has this address and no escape: the guard, then in type 1 alone
    /// the reference tag, for which the address's low four bytes are expected.
    #[inline]
    pub fn fault(&self, interval: &[u8], address: u64) -> Option<Fault> {
        let (data, fields) = interval.split_at(self.data);
        let fields = Fields::of(fields);
        if fields.guard != guard(data) {
            return Some(Fault::Guard);
        }
        if self.p == 1 && fields.reference != address as u32 {
            return Some(Fault::Reference);
        }
        None
    }
}

/// What is wrong with an interval.
#[derive(Clone, Copy, Debug, PartialEq, Eq)]
pub(crate) enum Fault {
    Guard,
    Reference,
}

/// The three fields after an interval's data.
#[derive(Clone, Copy, Debug, PartialEq, Eq)]
pub(crate) struct Fields {
    pub guard: u16,
    pub application: u16,
    pub reference: u32,
}

impl Fields {
    #[inline]
    pub fn of(bytes: &[u8]) -> Self {
        let all = u64::from_be_bytes(*bytes.first_chunk().expect("eight bytes of fields"));
        Fields {
            guard: (all >> 48) as u16,
            application: (all >> 32) as u16,
            reference: all as u32,
        }
    }

    #[inline]
    pub fn bytes(self) -> [u8; FIELD_BYTES] {
        let high = u64::from(self.guard) << 48 | u64::from(self.application) << 32;
        (high | u64::from(self.reference)).to_be_bytes()
    }
}

/// Fills a fresh segment: data zero and all eight field bytes FFh. A segment of
/// type 0 has no fields and becomes zero throughout.
pub fn fill(desc: &Description, segment: &mut [u8]) -> u64 {
    let Some(shape) = desc.shape() else {
        return DESCRIPTION_BAD;
    };
    if segment.len() != shape.total {
        return SEGMENT_LENGTH_WRONG;
    }
    for interval in segment.chunks_exact_mut(shape.step) {
        let (data, fields) = interval.split_at_mut(shape.data);
        data.fill(0);
        fields.fill(0xFF);
    }
    GOOD
}
