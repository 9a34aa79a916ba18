//! Descriptions, and blocks that are right in every field.

use reference::{Description, guard};

use crate::numbers::Numbers;

/// Each type with each exponent that it may have.
pub const SHAPES: [(u64, u64); 10] = [
    (0, 0),
    (1, 0),
    (2, 0),
    (2, 1),
    (2, 2),
    (2, 3),
    (3, 0),
    (3, 1),
    (3, 2),
    (3, 3),
];

/// Block lengths about the powers of two, from the least to the greatest.
pub const BLOCK_LENGTHS: [u64; 23] = [
    8, 16, 24, 56, 64, 72, 120, 128, 136, 248, 256, 264, 504, 512, 520, 1_016, 1_024, 1_032, 2_040,
    2_048, 2_056, 4_088, 4_096,
];

/// Counts about the numbers of bits that a number may be cut to by mistake.
pub const COUNTS: [u64; 11] = [
    255, 256, 257, 1_023, 1_024, 1_025, 32_767, 32_768, 32_769, 65_535, 65_536,
];

/// The marks of an escape with each bit of theirs in turn missing, as they stand behind
/// a guard.
pub fn each_mark_missing() -> impl Iterator<Item = [u8; 6]> {
    (0..48).map(|bit| {
        let mut marks = [0xFF; 6];
        marks[bit / 8] ^= 1 << (bit % 8);
        marks
    })
}

/// The tags of a run of intervals: one application tag, and reference tags that
/// count from the first.
#[derive(Clone, Copy, Debug)]
pub struct Tags {
    pub application: u16,
    pub first: u32,
}

/// The sizes of a description's intervals.
#[derive(Clone, Copy, Debug)]
pub struct Intervals {
    /// n, the intervals of a block.
    pub each: usize,
    /// The user data bytes of one.
    pub data: usize,
    /// The bytes of one with its fields.
    pub step: usize,
}

impl Intervals {
    pub fn of(desc: &Description) -> Self {
        let each = 1 << desc.e;
        let data = desc.b as usize / each;
        let fields = if desc.p == 0 { 0 } else { 8 };
        Intervals {
            each,
            data,
            step: data + fields,
        }
    }

    /// S, the bytes of a stored block.
    pub fn stored(&self) -> usize {
        self.each * self.step
    }
}

/// N × S of a description within the limits.
pub fn segment_length(desc: &Description) -> usize {
    desc.n as usize * Intervals::of(desc).stored()
}

/// Blocks with true guards and these tags; type 0 has data alone.
pub fn blocks(desc: &Description, count: u64, tags: Tags, numbers: &mut Numbers) -> Vec<u8> {
    let sizes = Intervals::of(desc);
    let mut out = Vec::with_capacity(count as usize * sizes.stored());
    for place in 0..count as usize * sizes.each {
        let data = numbers.data(sizes.data);
        out.extend(&data);
        if desc.p != 0 {
            out.extend(guard(&data).to_be_bytes());
            out.extend(tags.application.to_be_bytes());
            out.extend(tags.first.wrapping_add(place as u32).to_be_bytes());
        }
    }
    out
}

/// A description with ATO 0.
pub fn described(p: u64, b: u64, e: u64, w: u64, n: u64) -> Description {
    Description {
        p,
        b,
        e,
        w,
        n,
        ato: 0,
    }
}

/// A segment in which every interval is right as a listing and a scrub judge it.
pub fn right(desc: &Description, numbers: &mut Numbers) -> Vec<u8> {
    let tags = Tags {
        application: numbers.number() as u16 >> 1,
        first: desc.w as u32,
    };
    blocks(desc, desc.n, tags, numbers)
}

/// What may be the matter with an interval's fields.
#[derive(Clone, Copy)]
pub enum Spoiled {
    Guard,
    Reference,
    Escape,
}

pub const SPOILED: [Spoiled; 3] = [Spoiled::Guard, Spoiled::Reference, Spoiled::Escape];

impl Spoiled {
    pub fn put(self, fields: &mut [u8]) {
        match self {
            Spoiled::Guard => fields[1] ^= 1,
            Spoiled::Reference => fields[7] ^= 1,
            Spoiled::Escape => fields[2..].fill(0xFF),
        }
    }
}

/// A wrong bit anywhere, or marks of an escape in some interval.
pub fn spoil_blocks(desc: &Description, segment: &mut [u8], numbers: &mut Numbers) {
    let sizes = Intervals::of(desc);
    if desc.p == 0 || numbers.once_in(2) {
        segment[numbers.place(segment.len())] ^= 1 << numbers.below(8);
        return;
    }
    let interval = numbers.place(segment.len() / sizes.step);
    let (from, to) = numbers.pick(&[(2, 4), (4, 8), (2, 8)]);
    segment[interval * sizes.step + sizes.data..][from..to].fill(0xFF);
}

/// Every bad description that is one number away from a good one, and the good
/// ones at the limits.
pub fn one_number_away(good: &Description) -> Vec<Description> {
    let d = *good;
    let mut out = Vec::new();
    out.extend(PAST_TYPE.map(|p| Description { p, ..d }));
    out.extend(PAST_BLOCK.map(|b| Description { b, ..d }));
    out.extend(PAST_EXPONENT.map(|e| Description { e, ..d }));
    out.extend(PAST_COUNT.map(|n| Description { n, ..d }));
    out.extend(PAST_BIT.map(|ato| Description { ato, ..d }));
    let ends = [1 << 32, 1 << 63, 0u64];
    for end in ends {
        for back in [d.n + 1, d.n, d.n - 1, 1, 0] {
            out.push(Description {
                w: end.wrapping_sub(back),
                ..d
            });
        }
    }
    out
}

/// Each bit of each number of a description turned over.
pub fn one_bit_away(good: &Description) -> Vec<Description> {
    let turned = |bit: u32, field: fn(&mut Description) -> &mut u64| {
        let mut desc = *good;
        *field(&mut desc) ^= 1 << bit;
        desc
    };
    (0..64)
        .flat_map(|bit| FIELDS.map(|field| turned(bit, field)))
        .collect()
}

/// The numbers of a description.
const FIELDS: [fn(&mut Description) -> &mut u64; 6] = [
    |desc| &mut desc.p,
    |desc| &mut desc.b,
    |desc| &mut desc.e,
    |desc| &mut desc.w,
    |desc| &mut desc.n,
    |desc| &mut desc.ato,
];

/// A bad description for each way to be one.
pub fn each_bad(good: &Description) -> [Description; 9] {
    let d = *good;
    [
        Description { p: 4, ..d },
        Description { b: 0, ..d },
        Description { b: 12, ..d },
        Description { b: 4_104, ..d },
        Description { e: 4, ..d },
        Description { n: 0, ..d },
        Description { n: 65_537, ..d },
        Description { w: 1 << 63, ..d },
        Description { ato: 2, ..d },
    ]
}

/// The description with so many blocks that N × S is just above 2^bits, and the
/// bytes above it: the segment's length for who cuts it to so many bits. Nothing
/// if no count is so great.
pub fn just_above(desc: &Description, bits: u32) -> Option<(Description, usize)> {
    let stored = Intervals::of(desc).stored();
    let n = (1 << bits) / stored + 1;
    let desc = Description {
        n: n as u64,
        ..*desc
    };
    (n <= 65_536).then_some((desc, n * stored - (1 << bits)))
}

const PAST_TYPE: [u64; 12] = [
    0,
    1,
    2,
    3,
    4,
    5,
    0xFF,
    0x100,
    0x101,
    (1 << 32) + 1,
    (1 << 63) + 2,
    u64::MAX,
];
const PAST_BLOCK: [u64; 20] = [
    0,
    1,
    4,
    7,
    8,
    9,
    12,
    16,
    4_088,
    4_095,
    4_096,
    4_097,
    4_100,
    4_104,
    (1 << 16) + 8,
    (1 << 32) + 8,
    (1 << 63) + 8,
    u64::MAX - 7,
    u64::MAX - 6,
    u64::MAX,
];
const PAST_EXPONENT: [u64; 12] = [
    0,
    1,
    2,
    3,
    4,
    5,
    63,
    64,
    0x100,
    (1 << 32) + 1,
    1 << 63,
    u64::MAX,
];
const PAST_COUNT: [u64; 14] = [
    0,
    1,
    2,
    3,
    65_535,
    65_536,
    65_537,
    (1 << 32) - 1,
    1 << 32,
    (1 << 32) + 1,
    (1 << 63) - 1,
    1 << 63,
    (1 << 63) + 1,
    u64::MAX,
];
const PAST_BIT: [u64; 8] = [0, 1, 2, 3, 0x100, 0x101, (1 << 32) + 1, u64::MAX];

/// A description within the limits, biased to them. `bytes` bounds its segment.
pub fn any_good(numbers: &mut Numbers, bytes: u64) -> Description {
    let (p, e) = numbers.pick(&SHAPES);
    let b = match numbers.below(16) {
        0 => numbers.pick(&[512, 520, 4_088, 4_096]),
        1 => 8 * (1 + numbers.below(512)),
        _ => 8 * (1 + numbers.below(4)),
    };
    let most = (bytes / (b + 64)).clamp(1, 65_536);
    let n = match numbers.below(16) {
        0 => 1 + numbers.below(most),
        _ => 1 + numbers.below(most.min(5)),
    };
    described_any(p, b, e, n, numbers)
}

/// A description with these sizes, within the limits: any first address and any ATO.
pub fn described_any(p: u64, b: u64, e: u64, n: u64, numbers: &mut Numbers) -> Description {
    let last = (1 << 63) - n;
    let w = match numbers.below(8) {
        0 => 0,
        1 => last,
        2 => last - numbers.below(4),
        3 => numbers.below(last + 1),
        4 => (1 << 32) - numbers.below(8),
        5 => numbers.edge().min(last),
        _ => numbers.below(100),
    };
    Description {
        p,
        b,
        e,
        w,
        n,
        ato: numbers.below(2),
    }
}

/// Puts another number into one field of a description.
pub fn spoil(desc: &mut Description, numbers: &mut Numbers) {
    let field = match numbers.below(6) {
        0 => &mut desc.p,
        1 => &mut desc.b,
        2 => &mut desc.e,
        3 => &mut desc.w,
        4 => &mut desc.n,
        _ => &mut desc.ato,
    };
    *field = match numbers.below(3) {
        0 => numbers.edge(),
        1 => numbers.beside(*field),
        // The same again if it is cut.
        _ => field.wrapping_add(1 << numbers.pick(&[8, 16, 32, 63])),
    };
}

/// Makes bytes longer or shorter than they are.
pub fn stretch(bytes: &mut Vec<u8>, numbers: &mut Numbers) {
    let length = bytes.len();
    let other = match numbers.below(6) {
        0 => 0,
        1 => length + 1,
        2 => length.saturating_sub(1),
        3 => length + 8,
        4 => length.saturating_sub(8),
        _ => numbers.place(2 * length + 40),
    };
    bytes.resize(other, 0x77);
}
