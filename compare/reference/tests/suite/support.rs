//! Segments and commands for the tests.

use reference::{Description, Outcome, execute, guard, listing};

pub const READ: usize = 0;
pub const WRITE: usize = 1;
pub const VERIFY: usize = 2;
pub const OPERATIONS: [usize; 3] = [READ, WRITE, VERIFY];
pub const SIZES: [usize; 4] = [10, 12, 16, 32];

/// The segment M of the documents: type 1, three blocks of 8 bytes from 7.
pub const M: Description = Description {
    p: 1,
    b: 8,
    e: 0,
    w: 7,
    n: 3,
    ato: 0,
};

/// The bytes of M.
pub fn m() -> Vec<u8> {
    bytes(concat!(
        "00000000000000018BB7000000000007",
        "00000000000000029CD9000000000007",
        "00000000000000030000FFFF00000000",
    ))
}

pub fn describe(p: u64, b: u64, e: u64, w: u64, n: u64, ato: u64) -> Description {
    Description { p, b, e, w, n, ato }
}

/// Bytes from hexadecimal digits; blanks are passed over.
pub fn bytes(text: &str) -> Vec<u8> {
    let digits: Vec<u8> = text
        .chars()
        .filter(|c| !c.is_whitespace())
        .map(|c| c.to_digit(16).expect("a hexadecimal digit") as u8)
        .collect();
    digits
        .chunks(2)
        .map(|pair| pair[0] << 4 | pair[1])
        .collect()
}

/// A command before it is laid out in bytes.
#[derive(Clone, Copy, Debug)]
pub struct Cdb {
    pub operation: usize,
    pub size: usize,
    pub code: u8,
    pub byte_check: u8,
    pub address: u64,
    pub length: u32,
    pub first: u32,
    pub application: u16,
    pub mask: u16,
}

/// A command without the numbers that only 32 bytes hold.
pub fn cdb(operation: usize, size: usize, code: u8, address: u64, length: u32) -> Cdb {
    Cdb {
        operation,
        size,
        code,
        byte_check: 0,
        address,
        length,
        first: 0,
        application: 0,
        mask: 0,
    }
}

/// A 32-byte command.
pub fn long(operation: usize, code: u8, address: u64, length: u32, first: u32) -> Cdb {
    Cdb {
        first,
        ..cdb(operation, 32, code, address, length)
    }
}

impl Cdb {
    /// Whether this is a VERIFY that compares with the data sent.
    pub fn compares(&self) -> bool {
        self.operation == VERIFY && self.byte_check == 0b01
    }

    pub fn tags(self, application: u16, mask: u16) -> Cdb {
        Cdb {
            application,
            mask,
            ..self
        }
    }

    pub fn bytes(&self) -> Vec<u8> {
        let mut out = vec![0u8; self.size];
        let first = |codes: [u8; 3]| codes[self.operation];
        let protect = self.code << 5 | self.byte_check << 1;
        let address = self.address.to_be_bytes();
        let length = self.length.to_be_bytes();
        match self.size {
            10 => {
                out[0] = first([0x28, 0x2A, 0x2F]);
                out[1] = protect;
                out[2..6].copy_from_slice(&address[4..]);
                out[7..9].copy_from_slice(&length[2..]);
            }
            12 => {
                out[0] = first([0xA8, 0xAA, 0xAF]);
                out[1] = protect;
                out[2..6].copy_from_slice(&address[4..]);
                out[6..10].copy_from_slice(&length);
            }
            16 => {
                out[0] = first([0x88, 0x8A, 0x8F]);
                out[1] = protect;
                out[2..10].copy_from_slice(&address);
                out[10..14].copy_from_slice(&length);
            }
            _ => {
                out[0] = 0x7F;
                out[7] = 0x18;
                out[9] = first([0x09, 0x0B, 0x0A]);
                out[10] = protect;
                out[12..20].copy_from_slice(&address);
                out[20..24].copy_from_slice(&self.first.to_be_bytes());
                out[24..26].copy_from_slice(&self.application.to_be_bytes());
                out[26..28].copy_from_slice(&self.mask.to_be_bytes());
                out[28..32].copy_from_slice(&length);
            }
        }
        out
    }
}

pub fn outcome(answer: u64, address: u64, place: u64) -> Outcome {
    Outcome {
        answer,
        address,
        place,
    }
}

/// An outcome without numbers beside the answer.
pub fn plain(answer: u64) -> Outcome {
    outcome(answer, 0, 0)
}

/// Executes and returns the outcome with the segment and the buffer afterwards.
/// Asserts on the way what holds for every command: a refusal changes nothing, a
/// READ or VERIFY leaves the segment, and a WRITE or VERIFY its buffer.
pub fn run(
    desc: &Description,
    segment: &[u8],
    command: &[u8],
    buffer: &[u8],
) -> (Outcome, Vec<u8>, Vec<u8>) {
    let (mut after, mut moved) = (segment.to_vec(), buffer.to_vec());
    let got = execute(desc, &mut after, command, &mut moved);
    let is = |short: [u8; 3], long: u8| match command.first() {
        Some(0x7F) => command.get(9) == Some(&long),
        Some(first) => short.contains(first),
        None => false,
    };
    if got.answer != 0 || !is([0x28, 0xA8, 0x88], 0x09) {
        assert_eq!(moved, buffer, "the buffer changed");
    }
    if got.answer != 0 || !is([0x2A, 0xAA, 0x8A], 0x0B) {
        assert_eq!(after, segment, "the segment changed");
    }
    match got.answer {
        8..=10 => {}
        15 => assert_eq!(got, outcome(15, got.address, 0)),
        _ => assert_eq!(got, plain(got.answer)),
    }
    (got, after, moved)
}

/// The outcome of a command whose buffer has the length it should.
pub fn answer(desc: &Description, segment: &[u8], command: &Cdb) -> Outcome {
    let buffer = vec![0xC3; right_length(desc, command)];
    run(desc, segment, &command.bytes(), &buffer).0
}

/// The buffer length a command asks for; 0 where its blocks are out of range.
pub fn right_length(desc: &Description, command: &Cdb) -> usize {
    let brings_none = command.operation == VERIFY && !command.compares();
    if brings_none || u64::from(command.length) > desc.n {
        return 0;
    }
    let fields = if desc.p == 0 { 0 } else { 8 << desc.e };
    let each = if command.code == 0 {
        desc.b
    } else {
        desc.b + fields
    };
    (u64::from(command.length) * each) as usize
}

/// What a VERIFY sends that finds the transfer's blocks alike: their user data
/// with 000, else all their bytes.
pub fn sent(desc: &Description, segment: &[u8], command: &Cdb) -> Vec<u8> {
    let stored = desc.stored_block().unwrap() as usize;
    let start = (command.address - desc.w) as usize * stored;
    let own = &segment[start..][..command.length as usize * stored];
    let data = (desc.b >> desc.e) as usize;
    let step = stored >> desc.e;
    own.chunks(step)
        .flat_map(|interval| &interval[..if command.code == 0 { data } else { step }])
        .copied()
        .collect()
}

/// One interval: data, its true guard, and two tags.
pub fn interval(data: &[u8], application: u16, reference: u32) -> Vec<u8> {
    let mut out = data.to_vec();
    out.extend(guard(data).to_be_bytes());
    out.extend(application.to_be_bytes());
    out.extend(reference.to_be_bytes());
    out
}

/// A segment with true guards; data from the place, tags from a rule of block
/// and interval.
pub fn build(desc: &Description, tags: impl Fn(u64, u64) -> (u16, u32)) -> Vec<u8> {
    let intervals = 1 << desc.e;
    let mut out = Vec::new();
    for block in 0..desc.n {
        for inside in 0..intervals {
            let place = block * intervals + inside;
            let data: Vec<u8> = (0..desc.b / intervals)
                .map(|byte| (place * 31 + byte * 7 + 1) as u8)
                .collect();
            if desc.p == 0 {
                out.extend(data);
            } else {
                let (application, reference) = tags(block, inside);
                out.extend(interval(&data, application, reference));
            }
        }
    }
    out
}

/// A record of version 1 with the length it should have.
pub fn record(desc: &Description, segment: &[u8]) -> Vec<u8> {
    let mut body = vec![1, desc.p as u8, desc.e as u8];
    body.extend((desc.b as u16).to_be_bytes());
    body.extend(desc.w.to_be_bytes());
    body.extend((desc.n as u16).to_be_bytes());
    body.extend(segment);
    let mut out = (body.len() as u32).to_be_bytes().to_vec();
    out.extend(body);
    out
}

/// What the listing program prints for this standard input.
pub fn text(input: &[u8]) -> String {
    String::from_utf8(listing(input)).unwrap()
}

/// A small generator of numbers that look random, the same on every run.
pub struct Numbers(pub u64);

impl Numbers {
    pub fn next(&mut self) -> u64 {
        self.0 = self.0.wrapping_add(0x9E37_79B9_7F4A_7C15);
        let mut z = self.0;
        z = (z ^ (z >> 30)).wrapping_mul(0xBF58_476D_1CE4_E5B9);
        z = (z ^ (z >> 27)).wrapping_mul(0x94D0_49BB_1331_11EB);
        z ^ (z >> 31)
    }

    pub fn below(&mut self, limit: u64) -> u64 {
        self.next() % limit
    }

    /// True once in `times`.
    pub fn once_in(&mut self, times: u64) -> bool {
        self.below(times) == 0
    }

    pub fn pick<T: Copy>(&mut self, from: &[T]) -> T {
        from[self.below(from.len() as u64) as usize]
    }

    pub fn bytes(&mut self, length: usize) -> Vec<u8> {
        (0..length).map(|_| self.next() as u8).collect()
    }
}
