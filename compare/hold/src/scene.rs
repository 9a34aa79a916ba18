//! A command on a segment with its buffer.

use std::ops::Range;

use reference::Description;

use crate::call::{Call, Function};
use crate::command::{Command, Operation};
use crate::numbers::Numbers;
use crate::segment::{Intervals, Tags, blocks};

#[derive(Clone, Debug)]
pub struct Scene {
    pub desc: Description,
    pub command: Command,
    pub segment: Vec<u8>,
    pub buffer: Vec<u8>,
}

impl Scene {
    /// A scene in which every interval is as the command expects it, what is
    /// compared is alike, and every length is right. The description must be good.
    pub fn right(desc: Description, command: Command, numbers: &mut Numbers) -> Self {
        let known = known(&desc, &command);
        let offset = command.address.wrapping_sub(desc.w) << desc.e;
        // What the mask leaves out is not compared.
        let application = command.application ^ (numbers.number() as u16 & !command.mask);
        let tags = |first| Tags { application, first };
        let segment = blocks(
            &desc,
            desc.n,
            tags(known.wrapping_sub(offset as u32)),
            numbers,
        );
        let buffer = incoming(&desc, &command, &segment, tags(known), numbers);
        Scene {
            desc,
            command,
            segment,
            buffer,
        }
    }

    /// Another command on the same blocks: they must be as it expects them, in their
    /// whole application tags too.
    pub fn again(&self, command: Command, numbers: &mut Numbers) -> Self {
        let tags = Tags {
            application: command.application,
            first: known(&self.desc, &command),
        };
        Scene {
            command,
            buffer: incoming(&self.desc, &command, &self.segment, tags, numbers),
            ..self.clone()
        }
    }

    pub fn call(&self) -> Call {
        self.call_by(&self.command.bytes())
    }

    /// The call with these bytes as its command.
    pub fn call_by(&self, command: &[u8]) -> Call {
        let lent = [&self.segment[..], command, &self.buffer[..]];
        Call::described(Function::Execute, &self.desc, &[], lent)
    }

    /// The call, without a copy of the bytes.
    pub fn into_call(self) -> Call {
        let mut call = Call::described(Function::Execute, &self.desc, &[], []);
        call.lent = vec![self.segment, self.command.bytes(), self.buffer];
        call
    }

    /// The bytes whose intervals are judged: those that come in with their fields,
    /// or else the segment's.
    pub fn judged(&mut self) -> &mut Vec<u8> {
        if self.command.judges_buffer() {
            &mut self.buffer
        } else {
            &mut self.segment
        }
    }

    /// The bytes of the transfer that a command compares with those that are judged;
    /// none if it compares nothing.
    pub fn compared(&mut self) -> &mut [u8] {
        match own(&self.desc, &self.command) {
            Some(own) if self.command.operation == Operation::Compare => {
                if self.command.judges_buffer() {
                    &mut self.segment[own]
                } else {
                    &mut self.buffer
                }
            }
            _ => &mut [],
        }
    }

    /// The place of an interval in the judged bytes, from the transfer's first.
    pub fn interval(&self, place: usize) -> usize {
        let sizes = Intervals::of(&self.desc);
        let start = if self.command.judges_buffer() {
            0
        } else {
            (self.command.address - self.desc.w) as usize * sizes.stored()
        };
        start + place * sizes.step
    }
}

/// The first reference tag that is expected, or that may as well stand there.
fn known(desc: &Description, command: &Command) -> u32 {
    if desc.p == 1 {
        command.address as u32
    } else {
        command.first
    }
}

/// Where the transfer's blocks stand in the segment, if they do.
fn own(desc: &Description, command: &Command) -> Option<Range<usize>> {
    let start = command.address.checked_sub(desc.w)?;
    let end = start.checked_add(command.length.into())?;
    let stored = Intervals::of(desc).stored();
    (end <= desc.n).then(|| start as usize * stored..end as usize * stored)
}

/// The buffer's bytes, right in every field where there are any; those that are
/// compared are the segment's.
fn incoming(
    desc: &Description,
    command: &Command,
    segment: &[u8],
    tags: Tags,
    numbers: &mut Numbers,
) -> Vec<u8> {
    let count = u64::from(command.length).min(desc.n);
    match own(desc, command) {
        Some(own) if command.operation == Operation::Compare => sent(desc, command, &segment[own]),
        _ if command.judges_buffer() => blocks(desc, count, tags, numbers),
        _ => numbers.data(buffer_length(desc, command, count)),
    }
}

/// What a command brings that finds these blocks alike.
fn sent(desc: &Description, command: &Command, blocks: &[u8]) -> Vec<u8> {
    if command.code != 0 {
        return blocks.to_vec();
    }
    let sizes = Intervals::of(desc);
    let mut out = Vec::with_capacity(blocks.len());
    for interval in blocks.chunks_exact(sizes.step) {
        out.extend_from_slice(&interval[..sizes.data]);
    }
    out
}

/// The bytes that `count` blocks have in the buffer.
pub fn buffer_length(desc: &Description, command: &Command, count: u64) -> usize {
    let each = match (command.operation, command.code) {
        (Operation::Verify, _) => 0,
        (_, 0) => desc.b as usize,
        _ => Intervals::of(desc).stored(),
    };
    count as usize * each
}
