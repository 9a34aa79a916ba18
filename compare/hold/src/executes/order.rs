//! Commands with two things wrong at once, for the order of the refusals.

use crate::executes::each::kinds;
use crate::numbers::Numbers;
use crate::scene::Scene;
use crate::segment::Intervals;
use crate::trial::{Held, Put};

/// Each two things that may be wrong, with each kind of command.
pub fn each(put: Put<'_>) -> Held {
    let numbers = &mut Numbers::new(10);
    for (desc, command) in kinds() {
        let right = Scene::right(desc, command, numbers);
        for (number, late) in LAST_TO_FIRST.iter().enumerate() {
            for early in &LAST_TO_FIRST[number + 1..] {
                let mut scene = right.clone();
                late.in_scene(&mut scene);
                early.in_scene(&mut scene);
                let mut bytes = scene.command.bytes();
                late.in_bytes(&mut bytes);
                early.in_bytes(&mut bytes);
                put(scene.call_by(&bytes))?;
            }
        }
    }
    Ok(())
}

/// Something wrong with a call.
enum Wrong {
    InScene(fn(&mut Scene)),
    InBytes(fn(&mut Vec<u8>)),
}

use Wrong::{InBytes, InScene};

impl Wrong {
    fn in_scene(&self, scene: &mut Scene) {
        if let InScene(spoil) = self {
            spoil(scene);
        }
    }

    fn in_bytes(&self, bytes: &mut Vec<u8>) {
        if let InBytes(spoil) = self {
            spoil(bytes);
        }
    }
}

/// What may be wrong, from nothing and what is refused last to what is refused
/// first: what is told from a command's bytes comes before what cuts them.
const LAST_TO_FIRST: [Wrong; 34] = [
    InScene(|_| {}),
    InScene(|scene| differ(scene.compared().first_mut())),
    InScene(|scene| differ(scene.compared().last_mut())),
    InScene(|scene| spoil_field(scene, 4)),
    InScene(|scene| spoil_field(scene, 2)),
    InScene(|scene| spoil_field(scene, 0)),
    InScene(|scene| scene.buffer.push(0)),
    InScene(|scene| scene.buffer.clear()),
    InScene(|scene| scene.buffer.resize(scene.segment.len(), 0)),
    InScene(|scene| scene.command.address = scene.desc.w - 1),
    InScene(|scene| scene.command.address = scene.desc.w + scene.desc.n),
    InScene(|scene| scene.command.length = 4),
    InScene(|scene| scene.command.length = u32::MAX),
    InBytes(|bytes| protect(bytes, 0x02)),
    InBytes(|bytes| protect(bytes, 0x04)),
    InBytes(|bytes| protect(bytes, 0x20)),
    InBytes(|bytes| protect(bytes, 0xC0)),
    InBytes(|bytes| turn_in_32(bytes, 7)),
    InBytes(|bytes| bytes.push(0)),
    InBytes(|bytes| bytes.truncate(bytes.len() - 1)),
    InBytes(|bytes| turn_in_32(bytes, 9)),
    InBytes(|bytes| bytes.truncate(9)),
    InBytes(|bytes| bytes.truncate(1)),
    InBytes(|bytes| bytes[0] ^= 0x40),
    InBytes(Vec::clear),
    InScene(|scene| scene.segment.push(0)),
    InScene(|scene| scene.segment.truncate(scene.segment.len() - 1)),
    InScene(|scene| scene.desc.p = 4),
    InScene(|scene| scene.desc.b = 12),
    InScene(|scene| scene.desc.e = 4),
    InScene(|scene| scene.desc.n = 0),
    InScene(|scene| scene.desc.n = 65_537),
    InScene(|scene| scene.desc.w = 1 << 63),
    InScene(|scene| scene.desc.ato = 2),
];

/// Another bit in a byte that is compared, if there is one.
fn differ(byte: Option<&mut u8>) {
    if let Some(byte) = byte {
        *byte ^= 0x40;
    }
}

/// A wrong bit in a field of the first interval that is judged; in type 0, which has
/// none, in its data.
fn spoil_field(scene: &mut Scene, at: usize) {
    let sizes = Intervals::of(&scene.desc);
    let fields = if sizes.step == sizes.data {
        0
    } else {
        sizes.data
    };
    let place = scene.interval(0) + fields + at;
    scene.judged()[place] ^= 0x40;
}

fn is_32(bytes: &[u8]) -> bool {
    bytes[0] == 0x7F
}

/// Sets bits of the protect byte.
fn protect(bytes: &mut [u8], bits: u8) {
    let place = if is_32(bytes) { 10 } else { 1 };
    bytes[place] |= bits;
}

/// Turns over a bit of the 32-byte form that it must have as it is.
fn turn_in_32(bytes: &mut [u8], at: usize) {
    if is_32(bytes) {
        bytes[at] ^= 0x04;
    }
}
