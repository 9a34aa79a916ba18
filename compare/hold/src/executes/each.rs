//! The systematic calls for READ, WRITE and VERIFY.

use reference::Description;

use crate::command::{Command, OPERATIONS, Operation, SIZES};
use crate::numbers::Numbers;
use crate::scene::Scene;
use crate::segment::{Intervals, SHAPES, each_mark_missing, one_bit_away, one_number_away};
use crate::trial::{Held, Put};

pub fn each(put: Put<'_>) -> Held {
    let numbers = &mut Numbers::new(6);
    every_description(numbers, put)?;
    every_length(numbers, put)?;
    every_protect_byte(numbers, put)?;
    every_bit_of_a_command(numbers, put)?;
    every_service_action(numbers, put)?;
    every_first_byte(numbers, put)?;
    every_pair_of_faults(numbers, put)?;
    every_escape(numbers, put)?;
    every_mark(put)?;
    every_fault(numbers, put)?;
    every_transfer(numbers, put)?;
    every_address(numbers, put)
}

/// Four blocks, of which the command moves the middle two. The expected tags wrap
/// within the transfer, and not every bit of the application tag is compared.
pub fn middle(p: u64, e: u64, operation: Operation, size: usize) -> (Description, Command) {
    let desc = Description {
        p,
        b: 8,
        e,
        w: 7,
        n: 4,
        ato: 1,
    };
    let command = Command {
        operation,
        size,
        code: 0,
        address: 8,
        length: 2,
        first: 0xFFFF_FFFD,
        application: 0x1234,
        mask: 0xF0FF,
    };
    (desc, command)
}

/// Every type and exponent with every operation, size and code.
pub fn kinds() -> Vec<(Description, Command)> {
    let mut out = Vec::new();
    for (p, e) in SHAPES {
        for operation in OPERATIONS {
            for size in SIZES {
                let (desc, command) = middle(p, e, operation, size);
                out.extend((0..8).map(|code| (desc, Command { code, ..command })));
            }
        }
    }
    out
}

/// The kinds that no rule of type or code refuses.
pub fn served() -> impl Iterator<Item = (Description, Command)> {
    kinds().into_iter().filter(|(desc, command)| {
        let long = command.size == 32;
        match desc.p {
            0 => !long && command.code == 0,
            2 => command.code == 0 || long && command.code < 6,
            _ => !long && command.code < 6,
        }
    })
}

/// Each kind with block lengths from least to greatest, for each part of a segment
/// of three blocks.
fn every_transfer(numbers: &mut Numbers, put: Put<'_>) -> Held {
    for (desc, command) in kinds() {
        for (b, ato) in [(8, 0), (8, 1), (24, 0), (512, 1), (520, 0), (4_096, 1)] {
            for start in 0..=3 {
                for length in 0..=3 - start {
                    let desc = Description {
                        b,
                        ato,
                        n: 3,
                        ..desc
                    };
                    let command = Command {
                        address: desc.w + u64::from(start),
                        length,
                        ..command
                    };
                    put(Scene::right(desc, command, numbers).call())?;
                }
            }
        }
    }
    Ok(())
}

/// Each wrong bit of the segment and of the buffer.
fn every_fault(numbers: &mut Numbers, put: Put<'_>) -> Held {
    for (desc, command) in served() {
        for ato in 0..2 {
            let scene = Scene::right(Description { ato, ..desc }, command, numbers);
            for bit in 0..8 * scene.segment.len() {
                let mut scene = scene.clone();
                scene.segment[bit / 8] ^= 1 << (bit % 8);
                put(scene.call())?;
            }
            for bit in 0..8 * scene.buffer.len() {
                let mut scene = scene.clone();
                scene.buffer[bit / 8] ^= 1 << (bit % 8);
                put(scene.call())?;
            }
        }
    }
    Ok(())
}

/// Two faults of each kind in each two places of a transfer of four intervals: the
/// first is named.
fn every_pair_of_faults(numbers: &mut Numbers, put: Put<'_>) -> Held {
    for (desc, command) in served() {
        if (desc.p, desc.e, command.size) != (2, 1, 32) {
            continue;
        }
        let scene = Scene::right(desc, command, numbers);
        let data = Intervals::of(&desc).data;
        // In the data, the guard, the application tag, the reference tag.
        let places: Vec<usize> = (0..4)
            .flat_map(|place| [0, data, data + 2, data + 4].map(|at| (place, at)))
            .map(|(place, at)| scene.interval(place) + at)
            .collect();
        for one in &places {
            for other in &places {
                let mut scene = scene.clone();
                scene.judged()[*one] ^= 0x10;
                scene.judged()[*other] ^= 0x20;
                put(scene.call())?;
            }
        }
    }
    Ok(())
}

/// The marks of an escape, or a part of them, in each interval of the transfer,
/// with a fault of each kind in each interval.
fn every_escape(numbers: &mut Numbers, put: Put<'_>) -> Held {
    let one_size = |desc: &Description| if desc.p == 2 { 32 } else { 10 };
    for (desc, command) in served() {
        if desc.p == 0 || command.size != one_size(&desc) {
            continue;
        }
        let scene = Scene::right(desc, command, numbers);
        let sizes = Intervals::of(&desc);
        let fields: Vec<usize> = (0..2 * sizes.each)
            .map(|place| scene.interval(place) + sizes.data)
            .collect();
        for marked in &fields {
            for (from, to) in [(2, 4), (2, 8), (4, 8), (2, 3), (3, 7)] {
                for wrong in &fields {
                    // In the guard, the application tag, the reference tag.
                    for at in [0, 2, 4] {
                        let mut scene = scene.clone();
                        scene.judged()[wrong + at] ^= 0x40;
                        scene.judged()[marked + from..marked + to].fill(0xFF);
                        put(scene.call())?;
                    }
                }
            }
        }
    }
    Ok(())
}

/// The marks of an escape without one bit, beside a wrong guard, in each interval of
/// the transfer.
pub fn every_mark(put: Put<'_>) -> Held {
    let numbers = &mut Numbers::new(27);
    for (desc, command) in served() {
        let size = if desc.p == 2 { 32 } else { 16 };
        if desc.p == 0 || command.size != size || command.code > 1 {
            continue;
        }
        let scene = Scene::right(desc, command, numbers);
        let sizes = Intervals::of(&desc);
        for place in 0..2 * sizes.each {
            let fields = scene.interval(place) + sizes.data;
            for marks in each_mark_missing() {
                let mut scene = scene.clone();
                scene.judged()[fields] ^= 1;
                scene.judged()[fields + 2..][..6].copy_from_slice(&marks);
                put(scene.call())?;
            }
        }
    }
    Ok(())
}

/// Each bit of each command turned over.
fn every_bit_of_a_command(numbers: &mut Numbers, put: Put<'_>) -> Held {
    for (desc, command) in kinds() {
        if command.code > 1 {
            continue;
        }
        let scene = Scene::right(desc, command, numbers);
        let bytes = command.bytes();
        for bit in 0..8 * bytes.len() {
            let mut bytes = bytes.clone();
            bytes[bit / 8] ^= 1 << (bit % 8);
            put(scene.call_by(&bytes))?;
        }
    }
    Ok(())
}

/// Each byte 0 with each length of command, the rest that of a right command.
fn every_first_byte(numbers: &mut Numbers, put: Put<'_>) -> Held {
    for p in 0..4 {
        for size in [10, 32] {
            let (desc, command) = middle(p, 0, Operation::Read, size);
            let scene = Scene::right(desc, command, numbers);
            for first in 0..=255 {
                for length in 0..=40 {
                    let mut bytes = command.bytes();
                    bytes[0] = first;
                    bytes.resize(length, 0);
                    put(scene.call_by(&bytes))?;
                }
            }
        }
    }
    Ok(())
}

/// Each service action, and those served with each length and each byte 7.
fn every_service_action(numbers: &mut Numbers, put: Put<'_>) -> Held {
    let (desc, command) = middle(2, 1, Operation::Read, 32);
    let scene = Scene::right(desc, command, numbers);
    let mut bytes = command.bytes();
    for action in 0..=u16::MAX {
        bytes[8..10].copy_from_slice(&action.to_be_bytes());
        put(scene.call_by(&bytes))?;
    }
    for operation in OPERATIONS {
        let (_, command) = middle(2, 1, operation, 32);
        let scene = Scene::right(desc, command, numbers);
        for length in 0..=300 {
            let mut bytes = command.bytes();
            bytes.resize(length, 0);
            put(scene.call_by(&bytes))?;
        }
        for additional in 0..=255 {
            let mut bytes = command.bytes();
            bytes[7] = additional;
            put(scene.call_by(&bytes))?;
            put(scene.call_by(&bytes[..31]))?;
        }
    }
    Ok(())
}

/// Each protect byte: each code with each value of the bits beside it.
fn every_protect_byte(numbers: &mut Numbers, put: Put<'_>) -> Held {
    for (desc, command) in kinds() {
        let scene = Scene::right(desc, command, numbers);
        for low in 0..32 {
            let mut bytes = command.bytes();
            bytes[command.protect_place()] ^= low;
            put(scene.call_by(&bytes))?;
        }
    }
    Ok(())
}

/// Each kind with each wrong length of the segment and of the buffer.
fn every_length(numbers: &mut Numbers, put: Put<'_>) -> Held {
    for (desc, command) in kinds() {
        let scene = Scene::right(desc, command, numbers);
        let stored = Intervals::of(&desc).stored();
        for segment in lengths(scene.segment.len(), stored) {
            let mut scene = scene.clone();
            scene.segment.resize(segment, 0x77);
            put(scene.call())?;
        }
        // Also the length that another code or operation would ask for.
        let others = [2 * stored, 2 * desc.b as usize, 4 * stored];
        for buffer in lengths(scene.buffer.len(), stored).chain(others) {
            let mut scene = scene.clone();
            scene.buffer.resize(buffer, 0x77);
            put(scene.call())?;
        }
    }
    Ok(())
}

/// Lengths that a right one may be taken for.
fn lengths(right: usize, step: usize) -> impl Iterator<Item = usize> {
    let more = [0, 1, right + 1, right + 8, right + step, 2 * right];
    let less = [1, 8, step].map(|less| right.saturating_sub(less));
    more.into_iter().chain(less)
}

/// Each number of a description at its limits and past them.
fn every_description(numbers: &mut Numbers, put: Put<'_>) -> Held {
    for (desc, command) in kinds() {
        if command.code != 0 {
            continue;
        }
        let scene = Scene::right(desc, command, numbers);
        let away = one_number_away(&desc).into_iter();
        for desc in away.chain(one_bit_away(&desc)) {
            put(Scene {
                desc,
                ..scene.clone()
            }
            .call())?;
        }
    }
    Ok(())
}

/// Segments at both ends of the addresses and near 2^32, with transfers at, before
/// and past both ends of the segment.
fn every_address(numbers: &mut Numbers, put: Put<'_>) -> Held {
    let last = (1 << 63) - 3;
    let near = (1 << 32) - 4..(1 << 32) + 3;
    let firsts: Vec<u64> = [0, 1, 7, last - 1, last]
        .into_iter()
        .chain(near)
        .chain([1 << 31, 1 << 62])
        .collect();
    for (desc, command) in kinds() {
        if command.code > 1 {
            continue;
        }
        for &w in &firsts {
            let desc = Description { w, n: 3, ..desc };
            for command in around(&desc, command) {
                put(Scene::right(desc, command, numbers).call())?;
            }
        }
    }
    Ok(())
}

/// The command at addresses and with lengths about the segment's ends.
fn around(desc: &Description, command: Command) -> Vec<Command> {
    let end = desc.w + desc.n;
    let near = [desc.w.wrapping_sub(1), desc.w, desc.w + 1, end - 1, end];
    let far = [end + 1, 0, desc.w + (1 << 32), 1 << 63, u64::MAX];
    let mut out = Vec::new();
    for address in near.into_iter().chain(far) {
        for length in [0, 1, 2, 3, 4, 1 << 16, u32::MAX] {
            out.push(Command {
                address,
                length,
                ..command
            });
        }
    }
    out
}
