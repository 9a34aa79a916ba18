//! Random calls for READ, WRITE and VERIFY.

use reference::Description;

use crate::call::Call;
use crate::command::{Command, OPERATIONS, Operation, SIZES};
use crate::numbers::Numbers;
use crate::scene::{Scene, buffer_length};
use crate::segment::{Intervals, any_good, spoil, stretch};

pub fn any(numbers: &mut Numbers) -> Call {
    let desc = any_good(numbers, 12_000);
    let command = any_command(&desc, numbers);
    let mut scene = Scene::right(desc, command, numbers);
    for _ in 0..numbers.pick(&[0, 0, 0, 1, 1, 2, 4]) {
        spoil_intervals(&mut scene, numbers);
    }
    if scene.command.operation == Operation::Compare {
        spoil_compared(&mut scene, numbers);
    }
    while numbers.once_in(4) {
        spoil_scene(&mut scene, numbers);
    }
    let mut bytes = scene.command.bytes();
    while numbers.once_in(8) {
        spoil_command(&mut bytes, numbers);
    }
    scene.call_by(&bytes)
}

/// A command that the description allows, but for a few.
fn any_command(desc: &Description, numbers: &mut Numbers) -> Command {
    // Four bytes hold the low addresses alone.
    let low = desc.w + desc.n <= 1 << 32;
    let sizes: &[usize] = match (desc.p, low) {
        (2, true) => &[10, 12, 16, 32, 32, 32],
        (2, false) => &[16, 32],
        (_, true) => &[10, 12, 16],
        (_, false) => &[16],
    };
    let size = match numbers.below(32) {
        0 => numbers.pick(&SIZES),
        _ => numbers.pick(sizes),
    };
    let moves_fields = desc.p == 1 || desc.p == 3 || size == 32;
    let start = numbers.below(desc.n + 1);
    let most = match numbers.below(4) {
        0 => desc.n - start,
        _ => numbers.below(desc.n - start + 1),
    };
    Command {
        operation: numbers.pick(&OPERATIONS),
        size,
        code: match numbers.below(32) {
            0 => numbers.below(8) as u8,
            _ if moves_fields => numbers.below(6) as u8,
            _ => 0,
        },
        address: desc.w + start,
        length: most as u32,
        first: match numbers.below(3) {
            0 => numbers.number() as u32,
            _ => 0u32.wrapping_sub(numbers.below(8) as u32),
        },
        application: numbers.pick(&[0x0000, 0x1234, 0xFFFE, 0xFFFF]),
        mask: numbers.pick(&[0x0000, 0x00FF, 0xF00F, 0xFFFF]),
    }
}

/// A wrong bit, wrong tags or marks of an escape in an interval of the segment or
/// of the buffer.
fn spoil_intervals(scene: &mut Scene, numbers: &mut Numbers) {
    let sizes = Intervals::of(&scene.desc);
    let bytes = if numbers.once_in(8) {
        &mut scene.segment
    } else {
        scene.judged()
    };
    let count = bytes.len() / sizes.step;
    if count == 0 {
        return;
    }
    let interval = &mut bytes[numbers.place(count) * sizes.step..][..sizes.step];
    let (data, fields) = interval.split_at_mut(sizes.data);
    match numbers.below(4) {
        0 => data[numbers.place(sizes.data)] ^= 1 << numbers.below(8),
        _ if fields.is_empty() => {}
        1 => fields[numbers.place(8)] ^= 1 << numbers.below(8),
        2 => {
            let (from, to) = numbers.pick(&[(0, 2), (2, 4), (4, 8), (2, 8), (0, 8)]);
            fields[from..to].fill(0xFF);
            // A wrong guard beside them shows whether they are marks of an escape.
            if numbers.once_in(2) {
                fields[0] ^= 1;
            }
        }
        _ => {
            let (from, to) = numbers.pick(&[(0, 2), (2, 4), (2, 4), (4, 8)]);
            fields[from..to].fill(numbers.pick(&[0x00, 0xFE, 0x7F]));
        }
    }
}

/// What is stored is sent as it has become, and another bit in what is compared.
fn spoil_compared(scene: &mut Scene, numbers: &mut Numbers) {
    if numbers.once_in(4) {
        *scene = scene.again(scene.command, numbers);
    }
    let compared = scene.compared();
    if !compared.is_empty() && numbers.once_in(3) {
        compared[numbers.place(compared.len())] ^= 1 << numbers.below(8);
    }
}

/// Another description, length, address, code or operation than the bytes were
/// made for; often the buffer has the length that is right now.
fn spoil_scene(scene: &mut Scene, numbers: &mut Numbers) {
    let command = &mut scene.command;
    match numbers.below(9) {
        0 => spoil(&mut scene.desc, numbers),
        1 => stretch(&mut scene.segment, numbers),
        2 => stretch(&mut scene.buffer, numbers),
        3 => command.address = numbers.edge(),
        4 => command.address = numbers.beside(command.address),
        5 => command.length = numbers.beside(command.length.into()) as u32,
        6 => command.code = numbers.below(8) as u8,
        7 => command.operation = numbers.pick(&OPERATIONS),
        _ => command.length = numbers.edge() as u32,
    }
    if scene.desc.fits() && numbers.once_in(2) {
        let count = u64::from(scene.command.length).min(scene.desc.n).min(300);
        let length = buffer_length(&scene.desc, &scene.command, count);
        scene.buffer.resize(length, 0x77);
    }
}

fn spoil_command(bytes: &mut Vec<u8>, numbers: &mut Numbers) {
    let length = bytes.len();
    match numbers.below(4) {
        0 => stretch(bytes, numbers),
        1 => bytes.truncate(numbers.place(length + 1)),
        _ if length == 0 => {}
        2 => bytes[numbers.place(length)] = numbers.number() as u8,
        _ => bytes[numbers.place(length)] ^= 1 << numbers.below(8),
    }
}
