//! Commands with great blocks, counts, transfers, addresses, offsets and places.

use reference::Description;

use crate::call::Call;
use crate::command::{Command, OPERATIONS, Operation, SIZES};
use crate::executes::each::middle;
use crate::numbers::Numbers;
use crate::scene::{Scene, buffer_length};
use crate::segment::{BLOCK_LENGTHS, COUNTS, Intervals, SHAPES, just_above, segment_length};
use crate::trial::{Held, Put};

/// All of them but `most`.
pub fn each(put: Put<'_>) -> Held {
    every_cut(put)?;
    every_length(put)?;
    every_block_length(put)?;
    every_address(put)?;
    every_count(put)?;
    every_offset(put)?;
    more_than_24_bits(put)
}

/// A size that a type's commands may have, and a code with which it moves fields if
/// it may.
fn size_and_code(p: u64) -> (usize, u8) {
    match p {
        0 => (16, 0),
        2 => (32, 1),
        _ => (16, 1),
    }
}

/// A command for `length` blocks from block number `start` of a segment of these
/// blocks. The tags of type 2 are the same wherever it begins.
fn at(desc: &Description, operation: Operation, start: u64, length: u64) -> Command {
    let (size, code) = size_and_code(desc.p);
    let (_, command) = middle(desc.p, desc.e, operation, size);
    Command {
        code,
        address: desc.w + start,
        length: length as u32,
        first: command.first.wrapping_add((start << desc.e) as u32),
        mask: 0xFFFF,
        ..command
    }
}

fn described(p: u64, e: u64, b: u64, n: u64) -> Description {
    let (desc, _) = middle(p, e, Operation::Read, 10);
    Description { b, n, ..desc }
}

/// The scene with nothing wrong, and with each field of its last interval wrong, the
/// guard also beside the marks of an escape.
fn put_with_last_wrong(scene: &Scene, put: Put<'_>) -> Held {
    put(scene.call())?;
    let sizes = Intervals::of(&scene.desc);
    if sizes.step == sizes.data {
        return Ok(());
    }
    let intervals = scene.command.length as usize * sizes.each;
    let fields = scene.interval(intervals - 1) + sizes.data;
    for at in [0, 2, 4] {
        let mut scene = scene.clone();
        scene.judged()[fields + at] ^= 1;
        put(scene.into_call())?;
    }
    let mut scene = scene.clone();
    let fields = &mut scene.judged()[fields..];
    fields[0] ^= 1;
    fields[2..8].fill(0xFF);
    put(scene.into_call())
}

/// If the scene compares: a difference in the last byte of the last block, where no
/// check sees it.
fn put_different(mut scene: Scene, put: Put<'_>) -> Held {
    match scene.compared().last_mut() {
        Some(byte) => {
            *byte ^= 1;
            put(scene.into_call())
        }
        None => Ok(()),
    }
}

/// If the scene compares: it again with its code and with 000.
fn comparing(scene: &Scene, numbers: &mut Numbers) -> impl Iterator<Item = Scene> {
    let codes = match (scene.command.operation, scene.command.code) {
        (Operation::Compare, 0) => vec![0],
        (Operation::Compare, code) => vec![code, 0],
        _ => vec![],
    };
    codes.into_iter().map(|code| {
        let command = Command {
            code,
            ..scene.command
        };
        scene.again(command, numbers)
    })
}

/// If the scene compares: a difference in its last block, with its code and with 000.
fn put_with_last_different(scene: &Scene, numbers: &mut Numbers, put: Put<'_>) -> Held {
    comparing(scene, numbers).try_for_each(|scene| put_different(scene, put))
}

/// If the scene compares: a difference in its first block and a fault in its last one,
/// which comes first all the same, with its code and with 000.
fn put_with_last_wrong_and_first_different(
    scene: &Scene,
    numbers: &mut Numbers,
    put: Put<'_>,
) -> Held {
    comparing(scene, numbers).try_for_each(|mut scene| {
        let intervals = scene.command.length as usize * Intervals::of(&scene.desc).each;
        let last = scene.interval(intervals - 1);
        scene.judged()[last] ^= 1;
        scene.compared()[0] ^= 1;
        put(scene.into_call())
    })
}

/// Lengths of segment, command and buffer that are right only if they, or N × S or
/// T × B or T × S, are cut to some number of bits.
pub fn every_cut(put: Put<'_>) -> Held {
    let numbers = &mut Numbers::new(20);
    for operation in OPERATIONS {
        for (p, e) in SHAPES {
            for b in [8, 4_096] {
                every_cut_product(&described(p, e, b, 1), operation, put)?;
            }
            let desc = described(p, e, 8, 4);
            let right = Scene::right(desc, at(&desc, operation, 1, 2), numbers);
            right.into_call().each_cut().try_for_each(&mut *put)?;
        }
        for size in SIZES {
            let p = if size == 32 { 2 } else { 1 };
            let (desc, command) = middle(p, 0, operation, size);
            let right = Scene::right(desc, command, numbers);
            right.into_call().each_cut().try_for_each(&mut *put)?;
        }
    }
    Ok(())
}

/// Segments and buffers as short as N × S and the transfer's bytes are when they are
/// cut.
fn every_cut_product(one: &Description, operation: Operation, put: Put<'_>) -> Held {
    for bits in 8..=28 {
        if let Some((desc, cut)) = just_above(one, bits) {
            let segment = vec![0; cut];
            let buffer = Vec::new();
            let command = at(&desc, operation, 0, 1);
            put(Scene {
                desc,
                command,
                segment,
                buffer,
            }
            .into_call())?;
        }
    }
    if operation == Operation::Verify {
        return Ok(());
    }
    for bits in 8..=28 {
        for code in [0, 1] {
            cut_transfer(one, operation, code, bits).map_or(Ok(()), &mut *put)?;
        }
    }
    Ok(())
}

/// A transfer of just above 2^bits bytes with a buffer of the bytes above, if there
/// can be so many. Its segment is of zeros.
fn cut_transfer(one: &Description, operation: Operation, code: u8, bits: u32) -> Option<Call> {
    let with_code = |command: Command| Command { code, ..command };
    let each = buffer_length(one, &with_code(at(one, operation, 0, 1)), 1);
    let n = (1 << bits) / each + 1;
    let desc = Description {
        n: n as u64,
        ..*one
    };
    let scene = Scene {
        desc,
        command: with_code(at(&desc, operation, 0, desc.n)),
        segment: Vec::new(),
        buffer: vec![0; n * each - (1 << bits)],
    };
    let segment = (0, segment_length(&desc));
    (n <= 65_536).then(|| scene.into_call().with_zeros(segment))
}

/// Each size of command with great lengths, from the first block and to the last.
pub fn every_length(put: Put<'_>) -> Held {
    let numbers = &mut Numbers::new(22);
    for operation in OPERATIONS {
        for (p, size) in [
            (0, 10),
            (1, 10),
            (1, 12),
            (3, 16),
            (2, 10),
            (2, 12),
            (2, 16),
            (2, 32),
        ] {
            for length in COUNTS {
                let code = u8::from(p == 1 || p == 3);
                for start in [0, 1] {
                    let desc = described(p, 0, 8, (length + start).min(65_536));
                    let command = at(&desc, operation, start, length);
                    let command = Command {
                        size,
                        code,
                        ..command
                    };
                    let scene = Scene::right(desc, command, numbers);
                    put(scene.call())?;
                    put_with_last_different(&scene, numbers, put)?;
                }
            }
        }
    }
    Ok(())
}

/// Great blocks with a difference in the second of two, and with a fault of each kind:
/// in the first byte of its last interval, the middle one, the last one, and in each
/// field.
pub fn every_block_length(put: Put<'_>) -> Held {
    let numbers = &mut Numbers::new(28);
    for (p, e) in SHAPES {
        for operation in OPERATIONS {
            for b in BLOCK_LENGTHS {
                let desc = described(p, e, b, 3);
                let scene = Scene::right(desc, at(&desc, operation, 1, 2), numbers);
                put_with_last_wrong(&scene, put)?;
                put_with_last_different(&scene, numbers, put)?;
                let sizes = Intervals::of(&desc);
                let interval = scene.interval(2 * sizes.each - 1);
                for at in [0, sizes.data / 2, sizes.data - 1] {
                    let mut scene = scene.clone();
                    scene.judged()[interval + at] ^= 0x10;
                    put(scene.into_call())?;
                }
                // The first byte of the second of two blocks, and its middle one.
                for quarters in [2, 3] {
                    let mut scene = scene.clone();
                    let compared = scene.compared();
                    if let Some(byte) = compared.get_mut(quarters * compared.len() / 4) {
                        *byte ^= 0x10;
                        put(scene.into_call())?;
                    }
                }
            }
        }
    }
    Ok(())
}

/// Two blocks about each power of two, and the last ones that there may be, with a
/// fault of each kind or a difference in the second: its address is great.
pub fn every_address(put: Put<'_>) -> Held {
    let numbers = &mut Numbers::new(26);
    let powers = (1..=62).flat_map(|bits| [(1 << bits) - 2, 1 << bits]);
    let firsts: Vec<u64> = powers.chain([(1 << 63) - 4]).collect();
    for (p, e) in SHAPES {
        for operation in OPERATIONS {
            for &w in &firsts {
                let four = described(p, e, 8, 4);
                every_size_at(&Description { w, ..four }, operation, numbers, put)?;
            }
        }
    }
    Ok(())
}

/// The segment's middle two blocks by each command that its type may have and that can
/// hold their address.
fn every_size_at(
    desc: &Description,
    operation: Operation,
    numbers: &mut Numbers,
    put: Put<'_>,
) -> Held {
    let command = at(desc, operation, 1, 2);
    for size in SIZES {
        let long = size == 32;
        if long && desc.p != 2 || size < 16 && command.address >= 1 << 32 {
            continue;
        }
        // Type 2 has codes other than 000 in 32 bytes alone.
        let code = if desc.p == 2 && !long {
            0
        } else {
            command.code
        };
        let command = Command {
            size,
            code,
            ..command
        };
        let scene = Scene::right(*desc, command, numbers);
        put_with_last_wrong(&scene, put)?;
        put_with_last_different(&scene, numbers, put)?;
    }
    Ok(())
}

/// Each type and exponent with great counts, all blocks moved, and a fault of each
/// kind in the last interval, or a difference in its block: its place and its block's
/// address are great. Also a fault there and a difference in the first block.
pub fn every_count(put: Put<'_>) -> Held {
    let numbers = &mut Numbers::new(23);
    for (p, e) in SHAPES {
        for operation in OPERATIONS {
            for n in [257, 1_025, 32_769, 65_536] {
                let desc = described(p, e, 8, n);
                let scene = Scene::right(desc, at(&desc, operation, 0, n), numbers);
                put_with_last_wrong(&scene, put)?;
                put_with_last_different(&scene, numbers, put)?;
                put_with_last_wrong_and_first_different(&scene, numbers, put)?;
            }
        }
    }
    Ok(())
}

/// Two blocks from great offsets on of a segment with as many blocks as there may
/// be.
pub fn every_offset(put: Put<'_>) -> Held {
    let numbers = &mut Numbers::new(24);
    for (p, e, b) in [(0, 0, 8), (1, 0, 8), (2, 3, 8), (3, 1, 16)] {
        let desc = described(p, e, b, 65_536);
        let all = Scene::right(desc, at(&desc, Operation::Verify, 0, 0), numbers);
        for start in COUNTS.map(|count| count - 2) {
            for operation in OPERATIONS {
                every_way_from(&all, operation, start, numbers, put)?;
            }
        }
    }
    Ok(())
}

/// Two blocks from an offset on, with fields and without.
fn every_way_from(
    all: &Scene,
    operation: Operation,
    start: u64,
    numbers: &mut Numbers,
    put: Put<'_>,
) -> Held {
    let command = at(&all.desc, operation, start, 2);
    let scene = all.again(command, numbers);
    put_with_last_wrong(&scene, put)?;
    put_with_last_different(&scene, numbers, put)?;
    let without = Command { code: 0, ..command };
    put(all.again(without, numbers).into_call())
}

/// Segments and transfers of more than 2^24 bytes: all blocks, and the last two.
pub fn more_than_24_bits(put: Put<'_>) -> Held {
    let numbers = &mut Numbers::new(25);
    for (p, e, b) in [(0, 0, 264), (1, 0, 256), (2, 2, 256), (3, 3, 248)] {
        let n = 65_536;
        let desc = described(p, e, b, n);
        let all = Scene::right(desc, at(&desc, Operation::Verify, 0, 0), numbers);
        for operation in OPERATIONS {
            every_way_from(&all, operation, n - 2, numbers, put)?;
            for code in [0, u8::from(p != 0)] {
                let command = at(&desc, operation, 0, n);
                let command = Command { code, ..command };
                let scene = all.again(command, numbers);
                put(scene.call())?;
                put_different(scene, put)?;
            }
        }
    }
    Ok(())
}

/// As many bytes as there may be: 65,536 blocks of 4,160.
pub fn most(put: Put<'_>) -> Held {
    let numbers = &mut Numbers::new(11);
    let desc = described(2, 3, 4_096, 65_536);
    let command = at(&desc, Operation::Verify, 0, desc.n);
    let mut all = Scene::right(desc, command, numbers);
    for operation in OPERATIONS {
        let command = at(&desc, operation, desc.n - 2, 2);
        put(all.again(command, numbers).into_call())?;
        let without = Command { code: 0, ..command };
        put(all.again(without, numbers).into_call())?;
    }
    for operation in [Operation::Read, Operation::Write, Operation::Compare] {
        let command = at(&desc, operation, 0, desc.n);
        put(all
            .again(Command { code: 0, ..command }, numbers)
            .into_call())?;
    }
    // The last interval's reference tag, of the blocks, of those compared with right
    // ones, and then of those coming in.
    let last = all.segment.len() - 1;
    all.segment[last] ^= 1;
    put(all.call())?;
    let mut differing = all.again(at(&desc, Operation::Compare, 0, desc.n), numbers);
    differing.buffer[last] ^= 1;
    put(differing.into_call())?;
    all.command = at(&desc, Operation::Write, 0, desc.n);
    all.buffer = all.segment.clone();
    put(all.into_call())
}
