//! A command's bytes, taken apart.

use crate::answer::{COMMAND_LENGTH_WRONG, FIELD_INVALID, OPERATION_INVALID};

#[derive(Clone, Copy, Debug, PartialEq, Eq)]
pub(crate) enum Operation {
    Read,
    Write,
    Verify,
}

/// What only a 32-byte command says.
#[derive(Clone, Copy, Debug, PartialEq, Eq)]
pub(crate) struct Expected {
    pub first_reference: u32,
    pub application: u16,
    pub mask: u16,
}

#[derive(Clone, Copy, Debug, PartialEq, Eq)]
pub(crate) struct Command {
    pub operation: Operation,
    pub address: u64,
    pub length: u32,
    /// The protect code, 0 to 7.
    pub code: u8,
    /// Bits 2-1 of the protect byte, which mean something for VERIFY only.
    pub byte_check: u8,
    /// Present in a 32-byte command and in no other.
    pub expected: Option<Expected>,
}

impl Command {
    /// Whether this is a VERIFY that compares with the data sent.
    pub fn compares(&self) -> bool {
        self.operation == Operation::Verify && self.byte_check == 0b01
    }
}

/// Takes a command apart, or refuses it for what its own bytes say up to and
/// with byte 7 of the 32-byte form: empty 3; byte 0 not served 5; for 7Fh,
/// fewer than 10 bytes 3 and service action not served 5; length not the
/// command's 3; byte 7 not 18h 6.
pub(crate) fn decode(bytes: &[u8]) -> Result<Command, u64> {
    use Operation::{Read, Verify, Write};
    let &first = bytes.first().ok_or(COMMAND_LENGTH_WRONG)?;
    let (operation, size) = match first {
        0x28 => (Read, 10),
        0x2A => (Write, 10),
        0x2F => (Verify, 10),
        0xA8 => (Read, 12),
        0xAA => (Write, 12),
        0xAF => (Verify, 12),
        0x88 => (Read, 16),
        0x8A => (Write, 16),
        0x8F => (Verify, 16),
        0x7F if bytes.len() < 10 => return Err(COMMAND_LENGTH_WRONG),
        0x7F => match two(bytes, 8) {
            0x0009 => (Read, 32),
            0x000B => (Write, 32),
            0x000A => (Verify, 32),
            _ => return Err(OPERATION_INVALID),
        },
        _ => return Err(OPERATION_INVALID),
    };
    if bytes.len() != size {
        return Err(COMMAND_LENGTH_WRONG);
    }
    if size == 32 && bytes[7] != 0x18 {
        return Err(FIELD_INVALID);
    }
    let (protect, address, length) = match size {
        10 => (1, u64::from(four(bytes, 2)), u32::from(two(bytes, 7))),
        12 => (1, u64::from(four(bytes, 2)), four(bytes, 6)),
        16 => (1, eight(bytes, 2), four(bytes, 10)),
        _ => (10, eight(bytes, 12), four(bytes, 28)),
    };
    Ok(Command {
        operation,
        address,
        length,
        code: bytes[protect] >> 5,
        byte_check: bytes[protect] >> 1 & 3,
        expected: (size == 32).then(|| Expected {
            first_reference: four(bytes, 20),
            application: two(bytes, 24),
            mask: two(bytes, 26),
        }),
    })
}

/// The big-endian number in two bytes from `at`.
pub(crate) fn two(bytes: &[u8], at: usize) -> u16 {
    u16::from_be_bytes(*bytes[at..].first_chunk().expect("two bytes"))
}

/// The big-endian number in four bytes from `at`.
pub(crate) fn four(bytes: &[u8], at: usize) -> u32 {
    u32::from_be_bytes(*bytes[at..].first_chunk().expect("four bytes"))
}

/// The big-endian number in eight bytes from `at`.
pub(crate) fn eight(bytes: &[u8], at: usize) -> u64 {
    u64::from_be_bytes(*bytes[at..].first_chunk().expect("eight bytes"))
}
