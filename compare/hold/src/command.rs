//! Commands laid out in bytes.

#[derive(Clone, Copy, Debug, PartialEq, Eq)]
pub enum Operation {
    Read,
    Write,
    Verify,
    /// VERIFY with byte-check bits 01b.
    Compare,
}

pub const OPERATIONS: [Operation; 4] = [
    Operation::Read,
    Operation::Write,
    Operation::Verify,
    Operation::Compare,
];
pub const SIZES: [usize; 4] = [10, 12, 16, 32];

/// A command of `size` bytes; the last three numbers stand in 32 bytes alone.
#[derive(Clone, Copy, Debug)]
pub struct Command {
    pub operation: Operation,
    pub size: usize,
    pub code: u8,
    pub address: u64,
    pub length: u32,
    pub first: u32,
    pub application: u16,
    pub mask: u16,
}

impl Command {
    /// The command's bytes. A number too great for its place loses its high bytes.
    pub fn bytes(&self) -> Vec<u8> {
        let mut out = vec![0; self.size];
        let mut put = |from: usize, to: usize, number: u64| {
            out[from..to].copy_from_slice(&number.to_be_bytes()[8 - (to - from)..]);
        };
        let byte_check = u64::from(self.operation == Operation::Compare);
        let protect = u64::from(self.code) << 5 | byte_check << 1;
        let length = u64::from(self.length);
        match self.size {
            32 => {
                put(0, 1, 0x7F);
                put(7, 8, 0x18);
                put(8, 10, self.action());
                put(10, 11, protect);
                put(12, 20, self.address);
                put(20, 24, self.first.into());
                put(24, 26, self.application.into());
                put(26, 28, self.mask.into());
                put(28, 32, length);
            }
            size => {
                put(0, 1, self.action());
                put(1, 2, protect);
                put(2, if size == 16 { 10 } else { 6 }, self.address);
                match size {
                    10 => put(7, 9, length),
                    12 => put(6, 10, length),
                    _ => put(10, 14, length),
                }
            }
        }
        out
    }

    /// Byte 0, or the service action of 32 bytes.
    fn action(&self) -> u64 {
        let row = match self.size {
            10 => [0x28, 0x2A, 0x2F, 0x2F],
            12 => [0xA8, 0xAA, 0xAF, 0xAF],
            16 => [0x88, 0x8A, 0x8F, 0x8F],
            _ => [0x09, 0x0B, 0x0A, 0x0A],
        };
        row[self.operation as usize]
    }

    /// Whether the buffer's blocks come with their fields and are judged.
    pub fn judges_buffer(&self) -> bool {
        matches!(self.operation, Operation::Write | Operation::Compare) && self.code != 0
    }

    /// The place of the protect byte.
    pub fn protect_place(&self) -> usize {
        if self.size == 32 { 10 } else { 1 }
    }
}
