//! Calls for the guard, both ways, for runs of guards, and for the sense.

use crate::call::{Call, Function};
use crate::numbers::Numbers;
use crate::trial::{Held, Put};

pub fn each(put: Put<'_>) -> Held {
    single(put)?;
    every_short_interval(put)?;
    runs(put)?;
    senses(put)
}

/// Great lengths, sizes and counts, and lengths right only when they are cut.
pub fn large(put: Put<'_>) -> Held {
    every_cut(put)?;
    long_runs(put)?;
    long(put)
}

fn guard(data: &[u8]) -> [Call; 2] {
    [Function::Guard, Function::GuardByDivision].map(|function| Call::new(function, &[], [data]))
}

fn guards(data: &[u8], size: u64, out: usize) -> Call {
    Call::new(Function::Guards, &[size], [data, &vec![0xC3; out]])
}

fn sense(number: u64) -> Call {
    Call::new(Function::Sense, &[number], [])
}

/// Every length to 600, and beside the limits of an interval and a block.
fn single(put: Put<'_>) -> Held {
    let mut numbers = Numbers::new(1);
    let longer = [4_088, 4_095, 4_096, 4_097, 4_160, 65_535, 65_536, 100_003];
    for length in (0..=600).chain(longer) {
        for data in [
            numbers.bytes(length),
            vec![0x00; length],
            vec![0xFF; length],
            (0..length).map(|place| place as u8).collect(),
        ] {
            guard(&data).into_iter().try_for_each(&mut *put)?;
        }
    }
    for value in 0..=255 {
        guard(&[value]).into_iter().try_for_each(&mut *put)?;
    }
    for bit in 0..8 * 64 {
        let mut data = [0; 64];
        data[bit / 8] = 0x80 >> (bit % 8);
        guard(&data).into_iter().try_for_each(&mut *put)?;
    }
    Ok(())
}

/// All intervals of one and of two bytes.
fn every_short_interval(put: Put<'_>) -> Held {
    let ones: Vec<u8> = (0..=255).collect();
    let twos: Vec<u8> = (0..=u16::MAX).flat_map(u16::to_be_bytes).collect();
    put(guards(&ones, 1, 2 * ones.len()))?;
    put(guards(&twos, 2, twos.len()))
}

/// Runs of intervals, with each length one off and sizes that do not divide.
fn runs(put: Put<'_>) -> Held {
    let mut numbers = Numbers::new(2);
    for size in (0..=20).chain([63, 64, 65, 512, 4_096]) {
        for count in 0..=5 {
            for extra in [0, 1, size.max(1) - 1] {
                let data = numbers.bytes((size * count + extra) as usize);
                let out = 2 * count as usize;
                for out in [out, out + 1, out + 2, out.saturating_sub(1), 0] {
                    put(guards(&data, size, out))?;
                }
            }
        }
    }
    let far = [1 << 32, (1 << 32) + 8, 1 << 63, (1 << 63) + 8, u64::MAX];
    for size in far {
        for length in [0, 8, 16] {
            for out in [0, 2, 4] {
                put(guards(&numbers.bytes(length), size, out))?;
            }
        }
    }
    Ok(())
}

/// Lengths about the powers of two, to some MiB.
fn long(put: Put<'_>) -> Held {
    let mut numbers = Numbers::new(8);
    for bits in 10..=22 {
        for length in [(1 << bits) - 1, 1 << bits, (1 << bits) + 1] {
            let data = numbers.bytes(length);
            guard(&data).into_iter().try_for_each(&mut *put)?;
        }
    }
    let [table, division] = guard(&numbers.bytes((1 << 24) + 3));
    put(table)?;
    put(division)?;
    let [table, _] = guard(&numbers.bytes((1 << 27) + 5));
    put(table)
}

/// Great sizes and great counts.
fn long_runs(put: Put<'_>) -> Held {
    let mut numbers = Numbers::new(9);
    let about = |bits: u32| [(1 << bits) - 1, 1 << bits, (1 << bits) + 1];
    for bits in [8, 10, 12, 15, 16, 17, 20] {
        for great in about(bits) {
            for (size, count) in [(great, 1), (great, 3), (1, great), (3, great)] {
                let data = numbers.bytes(size * count);
                put(guards(&data, size as u64, 2 * count))?;
                // The last interval's guard has no place.
                put(guards(&data, size as u64, 2 * count - 2))?;
            }
        }
    }
    Ok(())
}

/// Lengths and sizes that are right only if they, or the bytes of all guards, are cut
/// to some number of bits.
fn every_cut(put: Put<'_>) -> Held {
    let data = [0xC3; 24];
    for bits in 8..64 {
        put(guards(&data, 8 + (1 << bits), 6))?;
        put(guards(&data, 1 << bits, 0))?;
    }
    for bits in 8..=32 {
        put(guards(&data, 8, 6).with_zeros((0, 4 << bits)))?;
    }
    guards(&data, 8, 6).each_cut().try_for_each(put)
}

/// All small numbers, and those that become one when they are cut.
fn senses(put: Put<'_>) -> Held {
    for number in 0..=600 {
        put(sense(number))?;
    }
    for high in 8..64 {
        for low in 0..20 {
            put(sense((1 << high) + low))?;
            put(sense(low.wrapping_sub(1 << high)))?;
        }
    }
    Ok(())
}

pub fn any(numbers: &mut Numbers) -> Call {
    let length = match numbers.below(16) {
        0 => numbers.place(5_000),
        _ => numbers.place(100),
    };
    match numbers.below(8) {
        0 => sense(numbers.edge()),
        1..=4 => {
            let data = numbers.data(length);
            let [table, division] = guard(&data);
            if numbers.once_in(2) { table } else { division }
        }
        _ => any_run(numbers, length),
    }
}

fn any_run(numbers: &mut Numbers, length: usize) -> Call {
    let size = match numbers.below(8) {
        0 => numbers.edge(),
        _ => 1 + numbers.below(40),
    };
    let count = length as u64 / size.max(1);
    let length = match numbers.below(4) {
        0 => length,
        _ => (count * size) as usize,
    };
    let out = match numbers.below(4) {
        0 => numbers.beside(2 * count).min(1_000),
        _ => 2 * count,
    };
    guards(&numbers.data(length), size, out as usize)
}
