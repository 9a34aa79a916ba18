//! Calls for the listing of a record.

use reference::{Description, listing};

use crate::call::{CUTS, Call, Function};
use crate::numbers::Numbers;
use crate::segment::{
    BLOCK_LENGTHS, Intervals, SHAPES, SPOILED, any_good, described, each_bad, each_mark_missing,
    just_above, right, spoil_blocks, stretch,
};
use crate::trial::{Held, Put};

/// The greatest length that a record may give.
const LIMIT: usize = 65_532;

/// The bytes of a record before its segment, its length apart.
const HEAD: usize = 15;

pub fn each(put: Put<'_>) -> Held {
    let mut numbers = Numbers::new(5);
    for (p, e) in SHAPES {
        let desc = described(p, 8, e, 7, 3);
        every_byte(&desc, &mut numbers, put)?;
        every_mark(&desc, &mut numbers, put)?;
        every_head(&desc, &mut numbers, put)?;
    }
    every_room(&mut numbers, put)?;
    every_length(&mut numbers, put)?;
    every_address(&mut numbers, put)?;
    longest(&mut numbers, put)
}

/// Two things wrong at once.
pub fn pairs(put: Put<'_>) -> Held {
    let mut numbers = Numbers::new(15);
    for (p, e) in SHAPES {
        every_two_faults(&described(p, 8, e, 7, 3), &mut numbers, put)?;
    }
    Ok(())
}

/// Great totals and rooms, and lengths right only when they are cut.
pub fn large(put: Put<'_>) -> Held {
    let mut numbers = Numbers::new(16);
    for (p, e) in SHAPES {
        let desc = described(p, 8, e, 7, 3);
        every_cut(&desc, &mut numbers, put)?;
        every_cut_product(&desc, put)?;
        every_total(p, e, &mut numbers, put)?;
        every_block_length(p, e, &mut numbers, put)?;
    }
    every_great_room(&mut numbers, put)
}

/// A record's bytes with the length given.
fn record(length: usize, version: u8, desc: &Description, segment: &[u8]) -> Vec<u8> {
    let mut out = Vec::with_capacity(4 + HEAD + segment.len());
    out.extend((length as u32).to_be_bytes());
    out.extend([version, desc.p as u8, desc.e as u8]);
    out.extend((desc.b as u16).to_be_bytes());
    out.extend(desc.w.to_be_bytes());
    out.extend((desc.n as u16).to_be_bytes());
    out.extend(segment);
    out
}

fn whole(desc: &Description, segment: &[u8]) -> Vec<u8> {
    record(HEAD + segment.len(), 1, desc, segment)
}

fn list(input: &[u8], room: usize) -> Call {
    Call::new(Function::List, &[], [input, &vec![0xC3; room]])
}

/// The listing of a segment, if a record can hold it, with more room than it needs.
pub fn list_segment(desc: &Description, segment: &[u8]) -> Option<Call> {
    let fits = desc.n <= u16::MAX.into() && HEAD + segment.len() <= LIMIT;
    // The first line and the last, and a line for each interval.
    let room = 128 + 64 * (segment.len() / Intervals::of(desc).step);
    fits.then(|| list(&whole(desc, segment), room))
}

/// The call with some room to spare.
fn list_all(input: &[u8]) -> Call {
    list(input, listing(input).len() + 5)
}

/// A wrong bit in each byte of the segment, and of the record's head.
fn every_byte(desc: &Description, numbers: &mut Numbers, put: Put<'_>) -> Held {
    let input = whole(desc, &right(desc, numbers));
    for place in 0..input.len() {
        for bit in 0..8 {
            let mut input = input.clone();
            input[place] ^= 1 << bit;
            put(list_all(&input))?;
        }
    }
    Ok(())
}

/// The marks of an escape, or half of them, in each interval, beside a wrong guard
/// in each other; and all of them but one bit.
fn every_mark(desc: &Description, numbers: &mut Numbers, put: Put<'_>) -> Held {
    let sizes = Intervals::of(desc);
    let segment = right(desc, numbers);
    if sizes.step == sizes.data {
        return put(list_all(&whole(desc, &segment)));
    }
    let count = segment.len() / sizes.step;
    for marked in 0..count {
        for wrong in 0..count {
            for (from, to) in [(2, 4), (4, 8), (2, 8), (2, 3), (3, 4), (2, 7)] {
                let mut segment = segment.clone();
                segment[marked * sizes.step + sizes.data..][from..to].fill(0xFF);
                segment[wrong * sizes.step] ^= 1;
                put(list_all(&whole(desc, &segment)))?;
            }
        }
        for marks in each_mark_missing() {
            let mut segment = segment.clone();
            segment[marked * sizes.step + sizes.data..][2..8].copy_from_slice(&marks);
            put(list_all(&whole(desc, &segment)))?;
        }
    }
    Ok(())
}

/// Each version, type and exponent, and block lengths and counts at their limits.
fn every_head(desc: &Description, numbers: &mut Numbers, put: Put<'_>) -> Held {
    let segment = right(desc, numbers);
    let length = HEAD + segment.len();
    for number in 0..=255 {
        put(list_all(&record(length, number, desc, &segment)))?;
        let p = number.into();
        put(list_all(&whole(&Description { p, ..*desc }, &segment)))?;
        let e = number.into();
        put(list_all(&whole(&Description { e, ..*desc }, &segment)))?;
    }
    for b in [0, 1, 7, 9, 12, 16, 4_088, 4_096, 4_097, 4_104, 65_528] {
        put(list_all(&whole(&Description { b, ..*desc }, &segment)))?;
    }
    for n in [0, 1, 2, 4, 0xFF, 0x100, 0x103, 65_535] {
        put(list_all(&whole(&Description { n, ..*desc }, &segment)))?;
    }
    Ok(())
}

/// Each two things wrong with a record at once: its length, the bytes that follow,
/// its version, its description, its segment.
fn every_two_faults(desc: &Description, numbers: &mut Numbers, put: Put<'_>) -> Held {
    let right = right(desc, numbers);
    // The last bad description is bad in ATO, which a record has not: a good one.
    for desc in each_bad(desc) {
        for segment in [
            right.len(),
            right.len() - 1,
            right.len() + 1,
            0,
            LIMIT - HEAD + 1,
        ] {
            let mut segment_bytes = right.clone();
            segment_bytes.resize(segment, 0x77);
            let length = HEAD + segment;
            for version in [1, 0, 2, 0xFF] {
                for given in [
                    length,
                    length - 1,
                    length + 1,
                    0,
                    14,
                    LIMIT + 1,
                    length + (1 << 16),
                    length + (1 << 24),
                    u32::MAX as usize,
                ] {
                    put(list_all(&record(given, version, &desc, &segment_bytes)))?;
                }
            }
        }
        // Cut within the head, with the length that is left and with another.
        let whole = whole(&desc, &right);
        for cut in 0..4 + HEAD {
            for given in [cut.saturating_sub(4), HEAD, LIMIT + 1] {
                let mut input = whole[..cut].to_vec();
                let bytes = (given as u32).to_be_bytes();
                let front = cut.min(4);
                input[..front].copy_from_slice(&bytes[..front]);
                put(list_all(&input))?;
                if cut > 4 {
                    input[4] = 2;
                    put(list_all(&input))?;
                }
            }
        }
    }
    Ok(())
}

/// Records and rooms whose length is right only if it is cut to some number of bits;
/// the record's length is the right one, or that of all the bytes.
fn every_cut(desc: &Description, numbers: &mut Numbers, put: Put<'_>) -> Held {
    let segment = right(desc, numbers);
    list_all(&whole(desc, &segment))
        .each_cut()
        .try_for_each(&mut *put)?;
    for bits in CUTS.into_iter().filter(|&bits| bits < 32) {
        let more = 1 << bits;
        let input = record(HEAD + segment.len() + more, 1, desc, &segment);
        put(list_all(&input).with_zeros((0, more)))?;
    }
    Ok(())
}

/// Segments whose length is right only if N × S is cut to some number of bits.
fn every_cut_product(desc: &Description, put: Put<'_>) -> Held {
    for b in [8, 4_096] {
        for bits in 8..=28 {
            let above = just_above(&Description { b, ..*desc }, bits);
            // A record's N has two bytes.
            if let Some((desc, cut)) = above.filter(|(desc, _)| desc.n < 65_536) {
                put(list_all(&whole(&desc, &vec![0; cut])))?;
            }
        }
    }
    Ok(())
}

/// Numbers of lines that have one digit more than others, or one bit.
const TOTALS: [usize; 26] = [
    0, 1, 9, 10, 11, 31, 32, 33, 63, 64, 65, 99, 100, 101, 127, 128, 129, 255, 256, 257, 999,
    1_000, 1_023, 1_024, 1_025, 4_096,
];

/// As many lines in each state as there are totals, from the first on and to the
/// last, among a few others or, for the greatest, in the longest record.
fn every_total(p: u64, e: u64, numbers: &mut Numbers, put: Put<'_>) -> Held {
    let sizes = Intervals::of(&described(p, 8, e, 0, 1));
    let most = (LIMIT - HEAD) / sizes.stored();
    for total in TOTALS.into_iter().chain([most * sizes.each]) {
        let count = (total / sizes.each + 2).min(most);
        let desc = described(p, 8, e, 9, count as u64);
        let right = right(&desc, numbers);
        put(list_all(&whole(&desc, &right)))?;
        if p == 0 {
            continue;
        }
        let rest = (count * sizes.each).saturating_sub(total);
        for spoiled in SPOILED {
            for first in [0, rest] {
                let mut segment = right.clone();
                let intervals = segment.chunks_exact_mut(sizes.step);
                for interval in intervals.skip(first).take(total) {
                    spoiled.put(&mut interval[sizes.data..]);
                }
                put(list_all(&whole(&desc, &segment)))?;
            }
        }
    }
    Ok(())
}

/// Great blocks, and each with a wrong byte in an interval's data, the first, the middle
/// one or the last one, and with each thing that may be the matter with its fields.
fn every_block_length(p: u64, e: u64, numbers: &mut Numbers, put: Put<'_>) -> Held {
    for b in BLOCK_LENGTHS {
        let desc = described(p, b, e, 7, 2);
        let sizes = Intervals::of(&desc);
        let right = right(&desc, numbers);
        put(list_all(&whole(&desc, &right)))?;
        for interval in 0..2 * sizes.each {
            for at in [0, sizes.data / 2, sizes.data - 1] {
                let mut segment = right.clone();
                segment[interval * sizes.step + at] ^= 0x10;
                put(list_all(&whole(&desc, &segment)))?;
            }
            for spoiled in SPOILED.into_iter().filter(|_| p != 0) {
                let mut segment = right.clone();
                spoiled.put(&mut segment[interval * sizes.step..][sizes.data..sizes.step]);
                put(list_all(&whole(&desc, &segment)))?;
            }
        }
    }
    Ok(())
}

/// Rooms about the powers of two, and about the end, of the longest listing.
fn every_great_room(numbers: &mut Numbers, put: Put<'_>) -> Held {
    let desc = described(2, 8, 3, u64::MAX >> 2, 909);
    let input = whole(&desc, &right(&desc, numbers));
    let needed = listing(&input).len();
    let powers = (8..=20).map(|bits| 1 << bits);
    for near in powers.chain([needed]) {
        for room in near - 1..=near + 1 {
            put(list(&input, room))?;
        }
    }
    Ok(())
}

/// Every room from none to more than enough, for a listing and for each refusal.
fn every_room(numbers: &mut Numbers, put: Put<'_>) -> Held {
    let desc = described(1, 8, 0, 9, 3);
    let segment = right(&desc, numbers);
    let inputs = [
        whole(&desc, &segment),
        whole(&Description { p: 4, ..desc }, &segment),
        whole(&desc, &segment[1..]),
        Vec::new(),
    ];
    for input in inputs {
        for room in 0..=listing(&input).len() + 3 {
            put(list(&input, room))?;
        }
    }
    Ok(())
}

/// Records cut at each byte, and lengths that are not those of the bytes.
fn every_length(numbers: &mut Numbers, put: Put<'_>) -> Held {
    let desc = described(1, 8, 0, 9, 3);
    let segment = right(&desc, numbers);
    let input = whole(&desc, &segment);
    for cut in 0..input.len() {
        put(list_all(&input[..cut]))?;
        // The same with a length that is right.
        if cut >= 4 {
            let mut input = input[..cut].to_vec();
            input[..4].copy_from_slice(&(cut as u32 - 4).to_be_bytes());
            put(list_all(&input))?;
        }
    }
    put(list_all(&[&input[..], &[0]].concat()))?;
    let right = HEAD + segment.len();
    let other = [0, 1, 14, 15, 16, right - 1, right + 1, LIMIT, LIMIT + 1];
    let far = [right + (1 << 16), right + (1 << 24), u32::MAX as usize];
    for length in other.into_iter().chain(far) {
        put(list_all(&record(length, 1, &desc, &segment)))?;
    }
    for length in LIMIT - 20..LIMIT + 20 {
        let segment = numbers.bytes(length - HEAD);
        put(list_all(&record(length, 1, &desc, &segment)))?;
    }
    Ok(())
}

/// Addresses of each number of digits, near 2^32, and at the limit.
fn every_address(numbers: &mut Numbers, put: Put<'_>) -> Held {
    let tens = (0..20).map(|digits| 10u64.pow(digits) - 1);
    let ends = [(1 << 32) - 2, (1 << 63) - 4, (1 << 63) - 3, (1 << 63) - 2];
    for w in tens.chain(ends).chain([1 << 63, u64::MAX, u64::MAX - 1]) {
        for (p, e) in SHAPES {
            let desc = described(p, 8, e, w, 3);
            let segment = right(&desc, numbers);
            put(list_all(&whole(&desc, &segment)))?;
        }
    }
    Ok(())
}

/// The longest records, and one block more than fits.
fn longest(numbers: &mut Numbers, put: Put<'_>) -> Held {
    for (p, e) in SHAPES {
        for b in [8, 4_096] {
            let stored = Intervals::of(&described(p, b, e, 0, 1)).stored();
            let most = (LIMIT - HEAD) / stored;
            for n in [most, most + 1] {
                let desc = described(p, b, e, 99_990, n as u64);
                let segment = right(&desc, numbers);
                put(list_all(&whole(&desc, &segment)))?;
            }
        }
    }
    Ok(())
}

pub fn any(numbers: &mut Numbers) -> Call {
    let desc = any_good(numbers, 3_000);
    let mut segment = right(&desc, numbers);
    for _ in 0..numbers.pick(&[0, 0, 1, 2, 5]) {
        spoil_blocks(&desc, &mut segment, numbers);
    }
    let mut input = whole(&desc, &segment);
    match numbers.below(16) {
        0 => {
            let place = numbers.place(4 + HEAD);
            input[place] ^= 1 << numbers.below(8);
        }
        1 => stretch(&mut input, numbers),
        2 => input.truncate(numbers.place(input.len())),
        3 => input = numbers.bytes(input.len().min(40)),
        4 => {
            let place = numbers.place(4 + HEAD);
            input[place] = numbers.number() as u8;
        }
        5 => {
            stretch(&mut segment, numbers);
            input = whole(&desc, &segment);
        }
        _ => {}
    }
    let needed = listing(&input).len();
    let room = match numbers.below(4) {
        0 => numbers.place(needed + 20),
        1 => needed,
        _ => needed + numbers.place(20),
    };
    list(&input, room)
}
