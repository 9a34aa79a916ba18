//! Calls for making parity, rebuilding and correcting.

use reference::Description;

use crate::call::{Call, Function};
use crate::numbers::Numbers;
use crate::segment::{
    Intervals, SHAPES, any_good, each_bad, just_above, one_bit_away, one_number_away,
    segment_length, spoil, stretch,
};
use crate::trial::{Held, Put};

/// Numbers of members: each that may be, and some that may not.
const MEMBERS: [u64; 24] = [
    0,
    1,
    2,
    3,
    4,
    5,
    6,
    7,
    8,
    9,
    10,
    11,
    12,
    13,
    14,
    15,
    16,
    17,
    18,
    0x100,
    (1 << 32) + 1,
    1 << 63,
    (1 << 63) + 1,
    u64::MAX,
];

pub fn each(put: Put<'_>) -> Held {
    let mut numbers = Numbers::new(4);
    for (p, e) in SHAPES {
        let small = described(p, 8, e, 2);
        every_part(&small, &mut numbers, put)?;
        every_bit_of_a_number(&small, &mut numbers, put)?;
        every_length(&small, &mut numbers, put)?;
        every_description(&small, &mut numbers, put)?;
    }
    // Parts about as long as whole pages, and longer.
    for (b, n) in [(4_080, 1), (4_088, 1), (4_096, 1), (4_096, 3)] {
        every_part(&described(1, b, 0, n), &mut numbers, put)?;
    }
    Ok(())
}

/// Two things wrong at once.
pub fn pairs(put: Put<'_>) -> Held {
    let mut numbers = Numbers::new(13);
    for (p, e) in SHAPES {
        every_two_faults(&described(p, 8, e, 2), &mut numbers, put)?;
    }
    Ok(())
}

/// Great parts, and lengths right only when they are cut: all but the greatest.
pub fn large(put: Put<'_>) -> Held {
    let mut numbers = Numbers::new(14);
    for (p, e) in SHAPES {
        let small = described(p, 8, e, 2);
        every_cut(&small, put)?;
        every_cut_product(&small, &mut numbers, put)?;
    }
    every_count(&mut numbers, put)
}

fn described(p: u64, b: u64, e: u64, n: u64) -> Description {
    Description {
        p,
        b,
        e,
        w: 7,
        n,
        ato: 0,
    }
}

fn parity(desc: &Description, k: u64, members: &[u8], out: &[u8]) -> Call {
    Call::described(Function::Parity, desc, &[k], [members, out])
}

fn rebuild(desc: &Description, k: u64, lost: u64, parts: &[u8], out: &[u8]) -> Call {
    Call::described(Function::Rebuild, desc, &[k, lost], [parts, out])
}

fn correct(desc: &Description, old: &[u8], fresh: &[u8], parity: &[u8]) -> Call {
    Call::described(Function::Correct, desc, &[], [old, fresh, parity])
}

/// How many parts are laid out for k members, also where k is out of range.
fn laid_out(k: u64) -> usize {
    k.min(18) as usize
}

/// Each number of members, and each lost part with each.
fn every_part(desc: &Description, numbers: &mut Numbers, put: Put<'_>) -> Held {
    let part = segment_length(desc);
    for k in MEMBERS {
        let members = numbers.bytes(laid_out(k) * part);
        let out = numbers.bytes(part);
        put(parity(desc, k, &members, &out))?;
        let parts = [members, numbers.bytes(part)].concat();
        let lost = (0..=laid_out(k) as u64 + 2).chain([17, 0x100, 1 << 32, 1 << 63, u64::MAX]);
        for lost in lost {
            put(rebuild(desc, k, lost, &parts, &out))?;
        }
    }
    let [old, fresh, parity] = [(); 3].map(|()| numbers.bytes(part));
    put(correct(desc, &old, &fresh, &parity))
}

/// Numbers of members and of the lost part with each bit turned over, and lengths that
/// are right for the number as it was.
fn every_bit_of_a_number(desc: &Description, numbers: &mut Numbers, put: Put<'_>) -> Held {
    let part = segment_length(desc);
    let parts = numbers.bytes(17 * part);
    let out = numbers.bytes(part);
    for k in [1, 2, 16] {
        let members = &parts[..k as usize * part];
        let all = &parts[..(k as usize + 1) * part];
        for bit in 0..64 {
            let turned = k ^ 1 << bit;
            put(parity(desc, turned, members, &out))?;
            for lost in [0, k] {
                put(rebuild(desc, turned, lost, all, &out))?;
                put(rebuild(desc, k, lost ^ 1 << bit, all, &out))?;
            }
        }
    }
    Ok(())
}

/// Each slice at each wrong length.
fn every_length(desc: &Description, numbers: &mut Numbers, put: Put<'_>) -> Held {
    let part = segment_length(desc);
    let all = numbers.bytes(20 * part);
    let offs = [part, part - 1, part + 1, 0, 2 * part, part - 8, part + 8];
    for k in [1, 2, 3, 15, 16] {
        let whole = k as usize * part;
        let other = [
            0,
            1,
            part,
            whole - 1,
            whole,
            whole + 1,
            whole + part - 1,
            whole + part,
            whole + part + 1,
            whole + 2 * part,
        ];
        for length in other {
            for out in offs {
                put(parity(desc, k, &all[..length], &all[..out]))?;
                put(rebuild(desc, k, k / 2, &all[..length], &all[..out]))?;
            }
        }
    }
    for old in offs {
        for fresh in offs {
            for parity in offs {
                let slices = [old, fresh, parity].map(|length| &all[part..][..length]);
                put(correct(desc, slices[0], slices[1], slices[2]))?;
            }
        }
    }
    Ok(())
}

fn every_description(good: &Description, numbers: &mut Numbers, put: Put<'_>) -> Held {
    let part = segment_length(good);
    let [old, fresh, out] = [(); 3].map(|()| numbers.bytes(part));
    let members = numbers.bytes(2 * part);
    for desc in one_number_away(good).into_iter().chain(one_bit_away(good)) {
        put(parity(&desc, 2, &members, &out))?;
        put(rebuild(&desc, 1, 0, &members, &out))?;
        put(correct(&desc, &old, &fresh, &out))?;
    }
    Ok(())
}

/// Each bad description with everything else that may be unfit, and with two of
/// these at once.
fn every_two_faults(good: &Description, numbers: &mut Numbers, put: Put<'_>) -> Held {
    let part = segment_length(good);
    let all = numbers.bytes(20 * part);
    let part_lengths = [part, part - 1, part + 1, 0];
    for desc in each_bad(good).iter().chain([good]) {
        for (k, parts) in [
            (2, 2),
            (0, 0),
            (0, 1),
            (17, 17),
            (1 << 32, 0),
            (u64::MAX, 16),
        ] {
            for length in [
                parts * part,
                parts * part + 1,
                (parts * part).saturating_sub(1),
            ] {
                for out in part_lengths {
                    put(parity(desc, k, &all[..length], &all[..out]))?;
                    for lost in [0, k, k.wrapping_add(1), u64::MAX] {
                        let length = length + part;
                        put(rebuild(desc, k, lost, &all[..length], &all[..out]))?;
                    }
                }
            }
        }
        for old in part_lengths {
            for fresh in part_lengths {
                for out in part_lengths {
                    put(correct(desc, &all[..old], &all[..fresh], &all[..out]))?;
                }
            }
        }
    }
    Ok(())
}

/// Lengths that are right only if they are cut to some number of bits.
fn every_cut(desc: &Description, put: Put<'_>) -> Held {
    let part = vec![0xC3; segment_length(desc)];
    let two = part.repeat(2);
    for right in [
        parity(desc, 2, &two, &part),
        rebuild(desc, 1, 1, &two, &part),
        correct(desc, &part, &part, &part),
    ] {
        right.each_cut().try_for_each(&mut *put)?;
    }
    Ok(())
}

/// Lengths that are right only if N × S, or as many times N × S as there are parts,
/// is cut to some number of bits.
fn every_cut_product(one: &Description, numbers: &mut Numbers, put: Put<'_>) -> Held {
    for b in [8, 4_096] {
        for bits in 8..=28 {
            if let Some((desc, cut)) = just_above(&Description { b, ..*one }, bits) {
                let all = numbers.bytes(3 * cut);
                put(parity(&desc, 2, &all[..2 * cut], &all[..cut]))?;
                put(rebuild(&desc, 2, 1, &all, &all[..cut]))?;
                put(correct(&desc, &all[..cut], &all[..cut], &all[..cut]))?;
            }
        }
    }
    for bits in 12..=20 {
        for (k, parts) in [(16, 16), (3, 3), (16, 17), (1, 2)] {
            put(cut_parts(one, bits, k, parts))?;
        }
    }
    Ok(())
}

/// A call with so many parts, parity among them or not, whose lengths are right only
/// if that of all parts is cut to so many bits. N is as small as can be.
fn cut_parts(one: &Description, bits: u32, k: u64, parts: u64) -> Call {
    let stored = Intervals::of(one).stored() as u64;
    let n = (1 << bits) / (parts * stored) + 1;
    let desc = Description { n, ..*one };
    let cut = vec![0xC3; (parts * n * stored - (1 << bits)) as usize];
    let call = if parts == k {
        parity(&desc, k, &cut, &[])
    } else {
        rebuild(&desc, k, 0, &cut, &[])
    };
    call.with_zeros((1, segment_length(&desc)))
}

/// Parts about as long as a power of two, with the fewest and the most members, and
/// each part lost.
fn every_count(numbers: &mut Numbers, put: Put<'_>) -> Held {
    for (p, e, b) in [(1, 0, 8), (2, 1, 16), (3, 3, 8), (3, 2, 4_096)] {
        for bits in 8..=20 {
            let one = described(p, b, e, 1);
            let near = (1 << bits) / segment_length(&one) as u64;
            for n in near.max(2) - 1..=near + 1 {
                let most = if bits > 16 { 3 } else { 16 };
                for k in [1, most] {
                    every_lost(&described(p, b, e, n.min(65_536)), k, numbers, put)?;
                }
            }
        }
    }
    Ok(())
}

/// One number of members with each lost part, and parity corrected.
fn every_lost(desc: &Description, k: u64, numbers: &mut Numbers, put: Put<'_>) -> Held {
    let part = segment_length(desc);
    let parts = numbers.bytes((k as usize + 1) * part);
    let out = vec![0xC3; part];
    put(parity(desc, k, &parts[..k as usize * part], &out))?;
    // The first, the second, the last member and parity.
    for lost in [0, 1, k - 1, k] {
        put(rebuild(desc, k, lost, &parts, &out))?;
    }
    put(correct(desc, &parts[..part], &parts[part..][..part], &out))
}

/// Parts of a MiB and more: the most members; the fewest with more than 2^27 bytes
/// each; and lengths whose true sums are above 2^32.
pub fn most(put: Put<'_>) -> Held {
    let numbers = &mut Numbers::new(12);
    every_lost(&described(1, 8, 0, 65_536), 16, numbers, put)?;
    let block = described(2, 4_096, 3, 1);
    let (longer, _) = just_above(&block, 24).expect("few blocks");
    let part = segment_length(&longer);
    let parts = numbers.bytes(17 * part);
    for lost in [0, 16] {
        put(rebuild(&longer, 16, lost, &parts, &parts[..part]))?;
    }
    drop(parts);
    let (longest, _) = just_above(&block, 27).expect("few blocks");
    let part = segment_length(&longest);
    let parts = numbers.bytes(3 * part);
    let [first, second, third] = [0, 1, 2].map(|number| &parts[number * part..][..part]);
    put(parity(&longest, 2, &parts[part..], first))?;
    put(rebuild(&longest, 2, 1, &parts, second))?;
    put(correct(&longest, first, second, third))?;
    put(cut_parts(&block, 32, 16, 16))?;
    put(cut_parts(&block, 32, 16, 17))
}

pub fn any(numbers: &mut Numbers) -> Call {
    let mut desc = any_good(numbers, 10_000);
    let part = segment_length(&desc);
    let mut k = 1 + numbers.below(16);
    let mut lost = numbers.below(k + 1);
    let function = numbers.below(3);
    let count = [k, k + 1, 1][function as usize] as usize;
    let mut first = numbers.bytes(count * part);
    let mut fresh = numbers.bytes(part);
    let mut out = numbers.bytes(part);
    if numbers.once_in(3) {
        match numbers.below(6) {
            0 => spoil(&mut desc, numbers),
            1 => stretch(&mut first, numbers),
            2 => stretch(&mut fresh, numbers),
            3 => stretch(&mut out, numbers),
            4 => k = numbers.edge(),
            _ => lost = numbers.edge(),
        }
    }
    match function {
        0 => parity(&desc, k, &first, &out),
        1 => rebuild(&desc, k, lost, &first, &out),
        _ => correct(&desc, &first, &fresh, &out),
    }
}
