//! The answer numbers, their sense, and what a command leaves.

pub const GOOD: u64 = 0;
pub const DESCRIPTION_BAD: u64 = 1;
pub const SEGMENT_LENGTH_WRONG: u64 = 2;
pub const COMMAND_LENGTH_WRONG: u64 = 3;
pub const BUFFER_LENGTH_WRONG: u64 = 4;
pub const OPERATION_INVALID: u64 = 5;
pub const FIELD_INVALID: u64 = 6;
pub const ADDRESS_OUT_OF_RANGE: u64 = 7;
pub const GUARD_FAILED: u64 = 8;
pub const APPLICATION_FAILED: u64 = 9;
pub const REFERENCE_FAILED: u64 = 10;
pub const STRIPE_BAD: u64 = 11;
pub const PARAMETER_INVALID: u64 = 12;
pub const RECORD_BAD: u64 = 13;
pub const TRANSFER_TOO_LONG: u64 = 14;
pub const BLOCK_DIFFERS: u64 = 15;

/// The answer to a command. Numbers 8 to 10 also give the block's address and
/// the interval's place in the transfer, number 15 the block's address and place
/// 0; all others give 0 and 0.
#[derive(Clone, Copy, Debug, PartialEq, Eq)]
pub struct Outcome {
    pub answer: u64,
    pub address: u64,
    pub place: u64,
}

impl From<u64> for Outcome {
    fn from(answer: u64) -> Self {
        Outcome {
            answer,
            address: 0,
            place: 0,
        }
    }
}

/// Sense key, additional sense code and qualifier of an answer that has them.
pub fn sense(answer: u64) -> Option<(u8, u8, u8)> {
    match answer {
        OPERATION_INVALID => Some((0x05, 0x20, 0x00)),
        FIELD_INVALID => Some((0x05, 0x24, 0x00)),
        ADDRESS_OUT_OF_RANGE => Some((0x05, 0x21, 0x00)),
        GUARD_FAILED => Some((0x0B, 0x10, 0x01)),
        APPLICATION_FAILED => Some((0x0B, 0x10, 0x02)),
        REFERENCE_FAILED => Some((0x0B, 0x10, 0x03)),
        PARAMETER_INVALID => Some((0x05, 0x26, 0x00)),
        BLOCK_DIFFERS => Some((0x0E, 0x1D, 0x00)),
        _ => None,
    }
}
