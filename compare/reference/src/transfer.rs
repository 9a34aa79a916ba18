//! READ, WRITE and VERIFY: what refuses a command, judging, comparing, and moving.
//!
//! All of a transfer is judged before the first byte moves or is compared.

use crate::answer::{
    ADDRESS_OUT_OF_RANGE, APPLICATION_FAILED, BLOCK_DIFFERS, BUFFER_LENGTH_WRONG, DESCRIPTION_BAD,
    FIELD_INVALID, GOOD, GUARD_FAILED, OPERATION_INVALID, Outcome, REFERENCE_FAILED,
    SEGMENT_LENGTH_WRONG, TRANSFER_TOO_LONG,
};
use crate::command::{Command, Operation, decode};
use crate::guard::guard;
use crate::segment::{Description, Fields, Shape};

/// Executes a command on a segment with a buffer. Any answer but 0 changes
/// neither.
pub fn execute(
    desc: &Description,
    segment: &mut [u8],
    command: &[u8],
    buffer: &mut [u8],
) -> Outcome {
    match attempt(desc, segment, command, buffer) {
        Ok(()) => GOOD.into(),
        Err(refusal) => refusal,
    }
}

fn attempt(
    desc: &Description,
    segment: &mut [u8],
    command: &[u8],
    buffer: &mut [u8],
) -> Result<(), Outcome> {
    let shape = desc.shape().ok_or(DESCRIPTION_BAD)?;
    if segment.len() != shape.total {
        return Err(SEGMENT_LENGTH_WRONG.into());
    }
    let command = decode(command)?;
    admit(desc, &shape, &command, buffer.len())?;

    // The address is within the segment now, so these numbers are small.
    let start = (command.address - desc.w) as usize * shape.stored;
    let end = start + command.length as usize * shape.stored;
    let blocks = &mut segment[start..end];
    let checks = checks(desc, &command);
    let judge = |origin, blocks: &[u8]| judge(&shape, &command, &checks, origin, blocks);

    match command.operation {
        Operation::Verify if !command.compares() => judge(Origin::Stored, blocks),
        Operation::Verify if command.code == 0 => {
            judge(Origin::Stored, blocks)?;
            refuse_different(&command, different_data(&shape, blocks, buffer))
        }
        Operation::Verify => {
            judge(Origin::Incoming, buffer)?;
            refuse_different(&command, different_block(&shape, blocks, buffer))
        }
        Operation::Read => {
            judge(Origin::Stored, blocks)?;
            if command.code == 0 {
                take_data(&shape, blocks, buffer);
            } else {
                buffer.copy_from_slice(blocks);
            }
            Ok(())
        }
        Operation::Write if command.code == 0 => {
            insert(&shape, &Inserted::by(desc, &command), buffer, blocks);
            Ok(())
        }
        Operation::Write => {
            judge(Origin::Incoming, buffer)?;
            blocks.copy_from_slice(buffer);
            Ok(())
        }
    }
}

/// The refusals between a command's own bytes and its intervals, in order.
fn admit(desc: &Description, shape: &Shape, command: &Command, buffer: usize) -> Result<(), u64> {
    let long = command.expected.is_some();
    match shape.p {
        2 if !long && command.code != 0 => return Err(OPERATION_INVALID),
        0 | 1 | 3 if long => return Err(OPERATION_INVALID),
        0 if command.code != 0 => return Err(FIELD_INVALID),
        _ => {}
    }
    if command.code >= 0b110 {
        return Err(FIELD_INVALID);
    }
    if command.operation == Operation::Verify && command.byte_check > 0b01 {
        return Err(FIELD_INVALID);
    }
    let end = u128::from(command.address) + u128::from(command.length);
    if command.address < desc.w || end > u128::from(desc.w) + u128::from(desc.n) {
        return Err(ADDRESS_OUT_OF_RANGE);
    }
    // The bytes of a transfer are taken to be those its code moves, T × B with
    // 000 and T × S otherwise, for a VERIFY that compares nothing too. T is at
    // most 65,536 here and S at most 4,160, so no description reaches this
    // refusal.
    let each = if command.code == 0 {
        shape.block
    } else {
        shape.stored
    };
    let bytes = u64::from(command.length) * each as u64;
    if bytes > 4_294_967_295 {
        return Err(TRANSFER_TOO_LONG);
    }
    let wanted = match command.operation {
        Operation::Verify if !command.compares() => 0,
        _ => bytes,
    };
    if buffer as u64 != wanted {
        return Err(BUFFER_LENGTH_WRONG);
    }
    Ok(())
}

/// The fields a command checks: those its code chooses and whose value is known.
struct Checks {
    guard: bool,
    /// The expected tag and the mask.
    application: Option<(u16, u16)>,
    /// The first expected tag.
    reference: Option<u32>,
}

impl Checks {
    const NONE: Checks = Checks {
        guard: false,
        application: None,
        reference: None,
    };

    fn any(&self) -> bool {
        self.guard || self.application.is_some() || self.reference.is_some()
    }
}

fn checks(desc: &Description, command: &Command) -> Checks {
    if desc.p == 0 {
        return Checks::NONE;
    }
    let (guard, application, reference) = match command.code {
        0b000 | 0b001 | 0b101 => (true, true, true),
        0b010 => (false, true, true),
        0b100 => (true, false, false),
        _ => (false, false, false),
    };
    let known_application = match command.expected {
        Some(expected) if desc.ato == 1 => Some((expected.application, expected.mask)),
        _ => None,
    };
    Checks {
        guard,
        application: known_application.filter(|_| application),
        reference: known_reference(desc, command).filter(|_| reference),
    }
}

/// The first expected reference tag, where one is known.
fn known_reference(desc: &Description, command: &Command) -> Option<u32> {
    match desc.p {
        1 => Some(command.address as u32),
        2 => command.expected.map(|expected| expected.first_reference),
        _ => None,
    }
}

/// Where judged blocks are from.
#[derive(Clone, Copy, PartialEq, Eq)]
enum Origin {
    Stored,
    /// What comes in has no escape. The escape is said to be there on READ and
    /// VERIFY only, but a VERIFY checks what comes in as a WRITE does.
    Incoming,
}

/// Judges the transfer's blocks and names the first wrong interval: guard,
/// application, reference, in that order within one interval. The expected
/// reference tag moves on past the intervals of an escaped block as well.
fn judge(
    shape: &Shape,
    command: &Command,
    checks: &Checks,
    origin: Origin,
    blocks: &[u8],
) -> Result<(), Outcome> {
    if !checks.any() {
        return Ok(());
    }
    let mut expected = checks.reference.unwrap_or(0);
    for (block, number) in blocks.chunks_exact(shape.stored).zip(0..) {
        if origin == Origin::Stored && shape.escaped(block) {
            expected = expected.wrapping_add(shape.intervals as u32);
            continue;
        }
        let mut rest = block;
        for inside in 0..shape.intervals {
            let (interval, tail) = rest.split_at(shape.step);
            rest = tail;
            if let Some(answer) = fault(shape, checks, expected, interval) {
                return Err(Outcome {
                    answer,
                    address: command.address + number,
                    place: number * shape.intervals as u64 + inside as u64,
                });
            }
            expected = expected.wrapping_add(1);
        }
    }
    Ok(())
}

/// The first check an interval fails.
#[inline]
fn fault(shape: &Shape, checks: &Checks, expected: u32, interval: &[u8]) -> Option<u64> {
    let (data, fields) = interval.split_at(shape.data);
    let fields = Fields::of(fields);
    if checks.guard && fields.guard != guard(data) {
        return Some(GUARD_FAILED);
    }
    if let Some((tag, mask)) = checks.application
        && (fields.application ^ tag) & mask != 0
    {
        return Some(APPLICATION_FAILED);
    }
    if checks.reference.is_some() && fields.reference != expected {
        return Some(REFERENCE_FAILED);
    }
    None
}

/// The first stored block whose user data differs from that in a buffer of data
/// alone, counted from the transfer's first. The escape is about checks: escaped
/// blocks are compared as all others are.
fn different_data(shape: &Shape, blocks: &[u8], buffer: &[u8]) -> Option<usize> {
    let intervals = blocks.chunks_exact(shape.step);
    let mut pairs = buffer.chunks_exact(shape.data).zip(intervals);
    let place = pairs.position(|(data, interval)| *data != interval[..shape.data])?;
    Some(place / shape.intervals)
}

/// The first stored block that differs from the one sent, fields included,
/// counted from the transfer's first.
fn different_block(shape: &Shape, blocks: &[u8], buffer: &[u8]) -> Option<usize> {
    let sent = buffer.chunks_exact(shape.stored);
    let mut pairs = blocks.chunks_exact(shape.stored).zip(sent);
    pairs.position(|(block, sent)| block != sent)
}

/// Refuses for the first differing block, if there is one.
fn refuse_different(command: &Command, first: Option<usize>) -> Result<(), Outcome> {
    match first {
        Some(number) => Err(Outcome {
            answer: BLOCK_DIFFERS,
            address: command.address + number as u64,
            place: 0,
        }),
        None => Ok(()),
    }
}

/// Copies the user data of stored blocks into a buffer of data alone.
fn take_data(shape: &Shape, blocks: &[u8], buffer: &mut [u8]) {
    let intervals = blocks.chunks_exact(shape.step);
    for (data, interval) in buffer.chunks_exact_mut(shape.data).zip(intervals) {
        data.copy_from_slice(&interval[..shape.data]);
    }
}

/// The tags a WRITE with code 000 inserts.
struct Inserted {
    application: u16,
    first_reference: u32,
    /// What each later reference tag adds to the one before.
    step: u32,
}

impl Inserted {
    fn by(desc: &Description, command: &Command) -> Self {
        // The expected tag is inserted whole; the mask is for comparing only.
        let application = match (desc.ato, command.expected) {
            (0, _) => 0x0000,
            (_, Some(expected)) => expected.application,
            (_, None) => 0xFFFF,
        };
        // Type 2 without an expected tag: (address of the block × n + interval
        // in the block) modulo 2^32, which also counts by one.
        let (first_reference, step) = match (desc.p, known_reference(desc, command)) {
            (_, Some(first)) => (first, 1),
            (2, None) => ((command.address << desc.e) as u32, 1),
            (_, None) => (0, 0),
        };
        Inserted {
            application,
            first_reference,
            step,
        }
    }
}

/// Stores user data from the buffer with fresh fields.
fn insert(shape: &Shape, inserted: &Inserted, buffer: &[u8], blocks: &mut [u8]) {
    if shape.p == 0 {
        blocks.copy_from_slice(buffer);
        return;
    }
    let mut reference = inserted.first_reference;
    let intervals = blocks.chunks_exact_mut(shape.step);
    for (data, interval) in buffer.chunks_exact(shape.data).zip(intervals) {
        let (place, fields) = interval.split_at_mut(shape.data);
        place.copy_from_slice(data);
        let fresh = Fields {
            guard: guard(data),
            application: inserted.application,
            reference,
        };
        fields.copy_from_slice(&fresh.bytes());
        reference = reference.wrapping_add(inserted.step);
    }
}
