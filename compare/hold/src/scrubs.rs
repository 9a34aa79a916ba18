//! Calls for scrubbing.

use reference::Description;

use crate::call::{Call, Function};
use crate::numbers::Numbers;
use crate::segment::{
    BLOCK_LENGTHS, COUNTS, Intervals, SHAPES, SPOILED, any_good, described, each_bad,
    each_mark_missing, just_above, one_bit_away, one_number_away, right, segment_length, spoil,
    spoil_blocks, stretch,
};
use crate::trial::{Held, Put};

pub fn each(put: Put<'_>) -> Held {
    let numbers = &mut Numbers::new(33);
    for (p, e) in SHAPES {
        let desc = described(p, 8, e, 7, 3);
        every_step(p, e, numbers, put)?;
        every_far_number(&desc, numbers, put)?;
        every_bit(&desc, numbers, put)?;
        every_mark(&desc, numbers, put)?;
        every_two_faults(&desc, numbers, put)?;
        every_length(&desc, numbers, put)?;
        every_description(&desc, numbers, put)?;
    }
    Ok(())
}

/// Two refusals at once, and all three.
pub fn pairs(put: Put<'_>) -> Held {
    let numbers = &mut Numbers::new(34);
    for (p, e) in SHAPES {
        every_two_refusals(&described(p, 8, e, 7, 3), numbers, put)?;
    }
    Ok(())
}

/// Great blocks, addresses and counts, and lengths right only when they are cut: all
/// but the most bytes.
pub fn large(put: Put<'_>) -> Held {
    every_cut(put)?;
    every_block_length(put)?;
    every_address(put)?;
    every_count(put)?;
    more_than_24_bits(put)
}

pub fn scrub(desc: &Description, segment: &[u8], place: u64, blocks: u64) -> Call {
    Call::described(Function::Scrub, desc, &[place, blocks], [segment])
}

/// All blocks; all but the first; the last alone.
fn put_parts(desc: &Description, segment: &[u8], put: Put<'_>) -> Held {
    put(scrub(desc, segment, 0, desc.n))?;
    put(scrub(desc, segment, 1, desc.n))?;
    put(scrub(desc, segment, desc.n - 1, 1))
}

/// A wrong bit in the data of an interval, which has a wrong guard then unless the
/// type has none.
fn turn(desc: &Description, segment: &mut [u8], interval: usize) {
    segment[interval * Intervals::of(desc).step] ^= 0x10;
}

/// The first interval of a block.
fn first_interval(desc: &Description, block: u64) -> usize {
    (block << desc.e) as usize
}

/// Segments of few blocks, each set of them wrong, with each place and each number
/// of blocks, to some more than there are. A first address of 0 is also that of no
/// fault.
fn every_step(p: u64, e: u64, numbers: &mut Numbers, put: Put<'_>) -> Held {
    for (w, n) in [0, 7]
        .into_iter()
        .flat_map(|w| (1..=4).map(move |n| (w, n)))
    {
        let desc = described(p, 8, e, w, n);
        let right = right(&desc, numbers);
        for wrong in 0..1 << n {
            let mut segment = right.clone();
            for block in (0..n).filter(|block| wrong >> block & 1 == 1) {
                turn(&desc, &mut segment, first_interval(&desc, block));
            }
            for place in 0..=n + 2 {
                for blocks in 0..=n + 2 {
                    put(scrub(&desc, &segment, place, blocks))?;
                }
            }
        }
    }
    Ok(())
}

/// Places and numbers of blocks about every power of two and up to the last number
/// that there is, and such whose sum is 2^64 or a little more.
fn every_far_number(desc: &Description, numbers: &mut Numbers, put: Put<'_>) -> Held {
    let mut segment = right(desc, numbers);
    for block in [1, 2] {
        turn(desc, &mut segment, first_interval(desc, block));
    }
    let about = (0..64).flat_map(|bits| (0..5).map(move |more| (1u64 << bits) + more - 1));
    for far in about.chain(u64::MAX - 3..=u64::MAX) {
        for near in [0, 1, desc.n, desc.n + 1] {
            put(scrub(desc, &segment, near, far))?;
            put(scrub(desc, &segment, far, near))?;
        }
        put(scrub(desc, &segment, far, far))?;
    }
    for more in 0..=desc.n + 1 {
        for number in 1..=desc.n + 1 {
            let rest = 0u64.wrapping_sub(number).wrapping_add(more);
            put(scrub(desc, &segment, number, rest))?;
            put(scrub(desc, &segment, rest, number))?;
        }
    }
    Ok(())
}

/// Each wrong bit of each block.
fn every_bit(desc: &Description, numbers: &mut Numbers, put: Put<'_>) -> Held {
    for ato in 0..2 {
        let desc = Description { ato, ..*desc };
        let right = right(&desc, numbers);
        put(scrub(&desc, &right, 0, desc.n))?;
        for bit in 0..8 * right.len() {
            let mut segment = right.clone();
            segment[bit / 8] ^= 1 << (bit % 8);
            put(scrub(&desc, &segment, 0, desc.n))?;
        }
    }
    Ok(())
}

/// The marks of an escape, or a part of them, in each interval, beside each thing that
/// may be the matter with each; and all of them but one bit, beside a wrong guard.
fn every_mark(desc: &Description, numbers: &mut Numbers, put: Put<'_>) -> Held {
    let sizes = Intervals::of(desc);
    let right = right(desc, numbers);
    if sizes.step == sizes.data {
        return put(scrub(desc, &vec![0xFF; right.len()], 0, desc.n));
    }
    let fields = |interval: usize| interval * sizes.step + sizes.data..(interval + 1) * sizes.step;
    let count = right.len() / sizes.step;
    for marked in 0..count {
        for wrong in 0..count {
            for (from, to) in [(2, 4), (4, 8), (2, 8), (2, 3), (3, 4), (2, 7)] {
                for spoiled in SPOILED {
                    let mut segment = right.clone();
                    spoiled.put(&mut segment[fields(wrong)]);
                    segment[fields(marked)][from..to].fill(0xFF);
                    put(scrub(desc, &segment, 0, desc.n))?;
                }
            }
        }
        for marks in each_mark_missing() {
            let mut segment = right.clone();
            let fields = &mut segment[fields(marked)];
            fields[0] ^= 1;
            fields[2..].copy_from_slice(&marks);
            put(scrub(desc, &segment, 0, desc.n))?;
        }
    }
    Ok(())
}

/// Each two intervals wrong, and each run of them: of one block and of several.
fn every_two_faults(desc: &Description, numbers: &mut Numbers, put: Put<'_>) -> Held {
    let right = right(desc, numbers);
    let count = right.len() / Intervals::of(desc).step;
    for one in 0..count {
        for other in one + 1..count {
            let mut two = right.clone();
            turn(desc, &mut two, one);
            turn(desc, &mut two, other);
            put_parts(desc, &two, put)?;
            let mut run = right.clone();
            (one..=other).for_each(|interval| turn(desc, &mut run, interval));
            put_parts(desc, &run, put)?;
        }
    }
    Ok(())
}

/// Each wrong length of the segment.
fn every_length(desc: &Description, numbers: &mut Numbers, put: Put<'_>) -> Held {
    let stored = Intervals::of(desc).stored();
    let mut segment = right(desc, numbers);
    let length = segment.len();
    segment.resize(2 * length + 1, 0x77);
    for other in (0..=length + stored + 1).chain([2 * length]) {
        put(scrub(desc, &segment[..other], 0, desc.n))?;
    }
    Ok(())
}

/// Each number of a description at its limits and past them, and with each bit turned
/// over, with places on both sides of the end.
fn every_description(good: &Description, numbers: &mut Numbers, put: Put<'_>) -> Held {
    let mut segment = right(good, numbers);
    turn(good, &mut segment, first_interval(good, 1));
    for desc in one_number_away(good).into_iter().chain(one_bit_away(good)) {
        for place in [0, 1, good.n, good.n + 1] {
            put(scrub(&desc, &segment, place, 2))?;
        }
    }
    Ok(())
}

/// Each bad description and a good one with each unfit length and with places that the
/// segment has and has not.
fn every_two_refusals(good: &Description, numbers: &mut Numbers, put: Put<'_>) -> Held {
    let length = segment_length(good);
    let segment = numbers.bytes(2 * length);
    for desc in each_bad(good).iter().chain([good]) {
        for length in [length, length - 1, length + 1, 0, 2 * length] {
            for place in [0, 1, good.n, good.n + 1, 65_536, 65_538, u64::MAX] {
                for blocks in [0, 1, good.n, u64::MAX] {
                    put(scrub(desc, &segment[..length], place, blocks))?;
                }
            }
        }
    }
    Ok(())
}

/// Lengths that are right only if they, or N × S, are cut to some number of bits.
pub fn every_cut(put: Put<'_>) -> Held {
    for (p, e) in SHAPES {
        for b in [8, 4_096] {
            let desc = described(p, b, e, 7, 2);
            let right = scrub(&desc, &vec![0xC3; segment_length(&desc)], 0, 2);
            right.each_cut().try_for_each(&mut *put)?;
            for bits in 8..=28 {
                if let Some((desc, cut)) = just_above(&desc, bits) {
                    put(scrub(&desc, &vec![0xC3; cut], 0, 1))?;
                }
            }
        }
    }
    Ok(())
}

/// Great blocks, and each with a wrong byte in an interval's data, the first, the middle
/// one or the last one, and with each thing that may be the matter with its fields.
pub fn every_block_length(put: Put<'_>) -> Held {
    let numbers = &mut Numbers::new(35);
    for (p, e) in SHAPES {
        for b in BLOCK_LENGTHS {
            let desc = described(p, b, e, 7, 2);
            let sizes = Intervals::of(&desc);
            let right = right(&desc, numbers);
            put(scrub(&desc, &right, 0, 2))?;
            for interval in 0..2 * sizes.each {
                for at in [0, sizes.data / 2, sizes.data - 1] {
                    let mut segment = right.clone();
                    segment[interval * sizes.step + at] ^= 0x10;
                    put(scrub(&desc, &segment, 0, 2))?;
                }
                for spoiled in SPOILED.into_iter().filter(|_| p != 0) {
                    let mut segment = right.clone();
                    let fields = &mut segment[interval * sizes.step..][sizes.data..sizes.step];
                    spoiled.put(fields);
                    // Marks of an escape are seen beside a wrong guard alone.
                    put(scrub(&desc, &segment, 0, 2))?;
                    segment[interval * sizes.step] ^= 0x10;
                    put(scrub(&desc, &segment, 0, 2))?;
                }
            }
        }
    }
    Ok(())
}

/// Four blocks about each power of two, the first and the last ones that there may be,
/// with a wrong guard, or another byte in the reference tag, in each: its address is
/// great.
pub fn every_address(put: Put<'_>) -> Held {
    let numbers = &mut Numbers::new(36);
    let powers = (2..=62).flat_map(|bits| [(1 << bits) - 4, (1 << bits) - 2, 1 << bits]);
    let firsts: Vec<u64> = [0, 1].into_iter().chain(powers).collect();
    for (p, e) in SHAPES {
        for &w in firsts.iter().chain(&[(1 << 63) - 5, (1 << 63) - 4]) {
            let desc = described(p, 8, e, w, 4);
            let sizes = Intervals::of(&desc);
            let right = right(&desc, numbers);
            put_parts(&desc, &right, put)?;
            for block in 0..4 {
                let interval = first_interval(&desc, block) * sizes.step;
                let fields = interval + sizes.data;
                let bytes = if p == 0 {
                    fields - 1..fields
                } else {
                    fields..fields + 8
                };
                for at in bytes {
                    let mut segment = right.clone();
                    segment[at] ^= 1;
                    put_parts(&desc, &segment, put)?;
                }
            }
        }
    }
    Ok(())
}

/// Great counts, with the first block and the last one wrong, and with all of them: the
/// places, the blocks judged and the faults are great.
pub fn every_count(put: Put<'_>) -> Held {
    let numbers = &mut Numbers::new(37);
    for (p, e) in SHAPES {
        for n in [1].into_iter().chain(COUNTS) {
            let desc = described(p, 8, e, 9, n);
            let mut segment = right(&desc, numbers);
            turn(&desc, &mut segment, 0);
            if n > 1 {
                turn(&desc, &mut segment, first_interval(&desc, n - 1));
            }
            put_parts(&desc, &segment, put)?;
            for place in [n, n + 1] {
                put(scrub(&desc, &segment, place, 1))?;
            }
            // All but the last one.
            put(scrub(&desc, &segment, 0, n - 1))?;
            for block in 1..n.saturating_sub(1) {
                turn(&desc, &mut segment, first_interval(&desc, block));
            }
            put(scrub(&desc, &segment, 0, u64::MAX))?;
        }
    }
    Ok(())
}

/// Segments of more than 2^24 bytes, of which the last block is wrong.
pub fn more_than_24_bits(put: Put<'_>) -> Held {
    let numbers = &mut Numbers::new(38);
    for (p, e, b) in [(0, 0, 264), (1, 0, 256), (2, 2, 256), (3, 3, 248)] {
        let desc = described(p, b, e, 9, 65_536);
        let mut segment = right(&desc, numbers);
        turn(&desc, &mut segment, first_interval(&desc, desc.n - 1));
        put(scrub(&desc, &segment, 0, desc.n))?;
        put(scrub(&desc, &segment, desc.n - 2, 2))?;
    }
    Ok(())
}

/// As many bytes as there may be: 65,536 blocks of 4,160, of which the last is wrong.
/// The guard of zeros is zero, and nothing else of type 2 is judged.
pub fn most(put: Put<'_>) -> Held {
    let desc = described(2, 4_096, 3, 9, 65_536);
    for (place, blocks) in [(desc.n - 2, 2), (0, desc.n)] {
        let mut segment = vec![0; segment_length(&desc)];
        turn(&desc, &mut segment, first_interval(&desc, desc.n) - 1);
        let mut call = scrub(&desc, &[], place, blocks);
        // Without a copy of the bytes.
        call.lent = vec![segment];
        put(call)?;
    }
    Ok(())
}

pub fn any(numbers: &mut Numbers) -> Call {
    let (mut desc, mut segment) = any_segment(numbers, 12_000);
    let place = match numbers.below(8) {
        0 => numbers.edge(),
        1 => numbers.beside(desc.n),
        _ => numbers.below(desc.n + 1),
    };
    let blocks = match numbers.below(8) {
        0 => numbers.edge(),
        // About as many as are left, and about 2^64 with the place.
        1 => numbers.beside(desc.n.wrapping_sub(place)),
        2 => numbers.beside(0u64.wrapping_sub(place)),
        _ => numbers.below(desc.n + 2),
    };
    if numbers.once_in(8) {
        spoil(&mut desc, numbers);
    }
    if numbers.once_in(8) {
        stretch(&mut segment, numbers);
    }
    scrub(&desc, &segment, place, blocks)
}

/// A description and its blocks, some of them wrong. `bytes` bounds the segment.
pub fn any_segment(numbers: &mut Numbers, bytes: u64) -> (Description, Vec<u8>) {
    let desc = any_good(numbers, bytes);
    let mut segment = right(&desc, numbers);
    for _ in 0..numbers.pick(&[0, 0, 1, 2, 5, 20]) {
        spoil_blocks(&desc, &mut segment, numbers);
    }
    (desc, segment)
}
