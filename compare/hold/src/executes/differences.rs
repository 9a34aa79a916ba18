//! VERIFY that compares, where what is stored and what is sent are not alike.

use reference::Description;

use crate::command::{Command, Operation};
use crate::executes::each::served;
use crate::numbers::Numbers;
use crate::scene::Scene;
use crate::segment::Intervals;
use crate::trial::{Held, Put};

pub fn each(put: Put<'_>) -> Held {
    every_bit(put)?;
    every_pair(put)?;
    every_escape(put)?;
    every_length(put)
}

/// Each type and exponent with each code, and one size of command; of five blocks
/// the middle three are compared.
fn kinds() -> impl Iterator<Item = (Description, Command)> {
    let one = |(desc, command): &(Description, Command)| {
        let size = if desc.p == 2 { 32 } else { 16 };
        command.operation == Operation::Compare && command.size == size
    };
    served().filter(one).map(|(desc, command)| {
        let desc = Description { n: 5, ..desc };
        let command = Command {
            length: 3,
            ..command
        };
        (desc, command)
    })
}

/// A byte of the stored blocks or of those sent.
#[derive(Clone, Copy)]
enum Byte {
    Stored(usize),
    Sent(usize),
}

impl Byte {
    fn of(self, scene: &mut Scene) -> &mut u8 {
        match self {
            Byte::Stored(at) => &mut scene.segment[at],
            Byte::Sent(at) => &mut scene.buffer[at],
        }
    }
}

/// A byte of an interval of the transfer, as it is stored and, if the buffer has it, as
/// it is sent.
fn both(scene: &Scene, place: usize, at: usize) -> Vec<Byte> {
    let sizes = Intervals::of(&scene.desc);
    let before = (scene.command.address - scene.desc.w) as usize * sizes.stored();
    let sent = if scene.command.code == 0 {
        sizes.data
    } else {
        sizes.step
    };
    let mut out = Vec::new();
    if at < sizes.step {
        out.push(Byte::Stored(before + place * sizes.step + at));
    }
    if at < sent {
        out.push(Byte::Sent(place * sent + at));
    }
    out
}

/// These bytes of each interval of three blocks, as they are stored and sent.
fn in_each(scene: &Scene, ats: &[usize]) -> Vec<Byte> {
    let intervals = 0..3 * Intervals::of(&scene.desc).each;
    let places = intervals.flat_map(|place| ats.iter().map(move |&at| (place, at)));
    places
        .flat_map(|(place, at)| both(scene, place, at))
        .collect()
}

/// Each bit of the segment and of the buffer.
pub fn every_bit(put: Put<'_>) -> Held {
    let numbers = &mut Numbers::new(29);
    for (desc, command) in kinds() {
        for ato in 0..2 {
            let scene = Scene::right(Description { ato, ..desc }, command, numbers);
            let stored = (0..scene.segment.len()).map(Byte::Stored);
            let sent = (0..scene.buffer.len()).map(Byte::Sent);
            for byte in stored.chain(sent) {
                for bit in 0..8 {
                    let mut scene = scene.clone();
                    *byte.of(&mut scene) ^= 1 << bit;
                    put(scene.into_call())?;
                }
            }
        }
    }
    Ok(())
}

/// A bit of the data and of each field of each interval, stored and sent, with each
/// other: two blocks differ, or one differs and another or the same one is wrong. Where
/// it is the same bit of both, they are alike and wrong.
pub fn every_pair(put: Put<'_>) -> Held {
    let numbers = &mut Numbers::new(30);
    for (desc, command) in kinds() {
        if desc.e > 1 {
            continue;
        }
        let scene = Scene::right(desc, command, numbers);
        let data = Intervals::of(&desc).data;
        let bytes = in_each(&scene, &[0, data, data + 2, data + 4]);
        for (number, one) in bytes.iter().enumerate() {
            for other in &bytes[number + 1..] {
                let mut scene = scene.clone();
                *one.of(&mut scene) ^= 0x10;
                *other.of(&mut scene) ^= 0x10;
                put(scene.into_call())?;
            }
        }
    }
    Ok(())
}

/// The marks of an escape in each interval that is stored, and also in the one that is
/// sent, with another bit in the data or in the guard of each interval.
pub fn every_escape(put: Put<'_>) -> Held {
    let numbers = &mut Numbers::new(31);
    for (desc, command) in kinds().filter(|(desc, _)| desc.p != 0) {
        let scene = Scene::right(desc, command, numbers);
        let sizes = Intervals::of(&desc);
        let others = in_each(&scene, &[0, sizes.data]);
        for marked in 0..3 * sizes.each {
            for marks in [2..4, 2..8] {
                let marks: Vec<Vec<Byte>> = marks
                    .map(|at| both(&scene, marked, sizes.data + at))
                    .collect();
                for ways in 1..=marks[0].len() {
                    let mut scene = scene.clone();
                    for byte in marks.iter().flat_map(|bytes| &bytes[..ways]) {
                        *byte.of(&mut scene) = 0xFF;
                    }
                    put(scene.call())?;
                    for byte in &others {
                        let mut scene = scene.clone();
                        *byte.of(&mut scene) ^= 0x10;
                        put(scene.into_call())?;
                    }
                }
            }
        }
    }
    Ok(())
}

/// Transfers of each length from none on, with buffers of as many bytes as another code
/// or another length would ask for, and of one more and one less.
pub fn every_length(put: Put<'_>) -> Held {
    let numbers = &mut Numbers::new(32);
    for (desc, command) in kinds() {
        let each = [desc.b as usize, Intervals::of(&desc).stored()];
        for length in 0..=3 {
            let command = Command { length, ..command };
            let scene = Scene::right(desc, command, numbers);
            for right in (0..=4).flat_map(|count| each.map(|each| count * each)) {
                for bytes in [right.saturating_sub(1), right, right + 1] {
                    let mut scene = scene.clone();
                    scene.buffer.resize(bytes, 0x77);
                    put(scene.into_call())?;
                }
            }
        }
    }
    Ok(())
}
