//! Calls for the format choice and for filling.

use reference::Description;

use crate::call::{Call, Function};
use crate::numbers::Numbers;
use crate::segment::{
    SHAPES, any_good, each_bad, just_above, one_bit_away, one_number_away, segment_length, spoil,
    stretch,
};
use crate::trial::{Held, Put};

pub fn each(put: Put<'_>) -> Held {
    choices(put)?;
    fills(put)
}

/// Great blocks in great numbers, and lengths right only when they are cut.
pub fn large(put: Put<'_>) -> Held {
    every_cut(put)?;
    large_fills(put)
}

fn choice(numbers: [u64; 4]) -> Call {
    Call::new(Function::Format, &numbers, [])
}

fn fill(desc: &Description, segment: &[u8]) -> Call {
    Call::described(Function::Fill, desc, &[], [segment])
}

/// Every choice, and every number of it past its limit.
fn choices(put: Put<'_>) -> Held {
    for spt in 0..10 {
        for protect in 0..4 {
            for fmtpinfo in 0..6 {
                for usage in 0..10 {
                    let numbers = [spt, protect, fmtpinfo, usage];
                    put(choice(numbers))?;
                    for place in 0..4 {
                        for far in [0x100, 1 << 32, 1 << 63, u64::MAX - 7] {
                            let mut numbers = numbers;
                            numbers[place] = numbers[place].wrapping_add(far);
                            put(choice(numbers))?;
                        }
                    }
                }
            }
        }
    }
    Ok(())
}

fn fills(put: Put<'_>) -> Held {
    let mut numbers = Numbers::new(3);
    for (p, e) in SHAPES {
        for (b, n) in [
            (8, 1),
            (8, 3),
            (16, 3),
            (512, 2),
            (520, 2),
            (4_096, 2),
            (8, 65_536),
        ] {
            let desc = described(p, b, e, n);
            let length = segment_length(&desc);
            let segment = numbers.bytes(2 * length);
            let others = [length, length - 1, length + 1, length - 8, length + 8];
            let far = [0, 1, 2 * length, b as usize * n as usize];
            for other in others.into_iter().chain(far) {
                put(fill(&desc, &segment[..other]))?;
            }
            if n < 65_536 {
                let away = one_number_away(&desc).into_iter();
                for desc in away.chain(one_bit_away(&desc)) {
                    put(fill(&desc, &segment[..length]))?;
                }
                for desc in each_bad(&desc) {
                    for other in [0, length - 1, length + 1] {
                        put(fill(&desc, &segment[..other]))?;
                    }
                }
            }
        }
    }
    Ok(())
}

fn described(p: u64, b: u64, e: u64, n: u64) -> Description {
    Description {
        p,
        b,
        e,
        w: 7,
        n,
        ato: 0,
    }
}

/// Lengths that are right only if they, or N × S, are cut to some number of bits.
fn every_cut(put: Put<'_>) -> Held {
    for (p, e) in SHAPES {
        for b in [8, 4_096] {
            let desc = described(p, b, e, 2);
            let right = fill(&desc, &vec![0xC3; segment_length(&desc)]);
            right.each_cut().try_for_each(&mut *put)?;
            for bits in 8..=28 {
                if let Some((desc, cut)) = just_above(&desc, bits) {
                    put(fill(&desc, &vec![0xC3; cut]))?;
                }
            }
        }
    }
    Ok(())
}

/// Great blocks in numbers about the powers of two, and the most bytes that there
/// may be.
fn large_fills(put: Put<'_>) -> Held {
    for (p, e) in SHAPES {
        for (b, n) in [
            (16, 32_769),
            (24, 65_535),
            (520, 1_025),
            (4_088, 255),
            (4_096, 256),
            (4_096, 257),
        ] {
            let desc = described(p, b, e, n);
            put(fill(&desc, &vec![0xC3; segment_length(&desc)]))?;
        }
    }
    for (p, e, n) in [(1, 0, 4_097), (3, 2, 32_769), (2, 3, 65_536)] {
        let desc = described(p, 4_096, e, n);
        put(fill(&desc, &vec![0xC3; segment_length(&desc)]))?;
    }
    Ok(())
}

pub fn any(numbers: &mut Numbers) -> Call {
    if numbers.once_in(3) {
        return choice([8, 2, 4, 8].map(|limit| match numbers.below(16) {
            0 => numbers.edge(),
            1 => limit,
            _ => numbers.below(limit),
        }));
    }
    let mut desc = any_good(numbers, 20_000);
    let mut segment = numbers.data(segment_length(&desc));
    if numbers.once_in(4) {
        spoil(&mut desc, numbers);
    }
    if numbers.once_in(4) {
        stretch(&mut segment, numbers);
    }
    fill(&desc, &segment)
}
