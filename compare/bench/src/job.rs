//! A command on a segment, to be executed over and over.

use std::cell::RefCell;
use std::fmt::{self, Display};
use std::io;
use std::ops::Range;

use reference::{Description, Outcome};

use crate::bytes::{noise, repeats};
use crate::options::Options;
use crate::table::{Case, OURS_AND_RUST, Output, Pass, Table, Verdict, measure};

#[derive(Clone, Copy, PartialEq, Eq)]
pub enum Operation {
    Read,
    Write,
    Verify,
    /// VERIFY with byte-check bits 01b.
    Compare,
}

impl Operation {
    pub const ALL: [Operation; 4] = [
        Operation::Read,
        Operation::Write,
        Operation::Verify,
        Operation::Compare,
    ];
}

impl Display for Operation {
    fn fmt(&self, f: &mut fmt::Formatter<'_>) -> fmt::Result {
        f.pad(match self {
            Operation::Read => "READ",
            Operation::Write => "WRITE",
            Operation::Verify => "VERIFY",
            Operation::Compare => "VERIFY that compares",
        })
    }
}

/// What a command asks: an operation with a protect code, and the transfer's
/// blocks, counted from the segment's first.
pub struct Request {
    pub operation: Operation,
    pub code: u8,
    pub blocks: Range<usize>,
}

/// Both implementations of the commands.
type Execute = fn(&Description, &mut [u8], &[u8], &mut [u8]) -> Outcome;

/// The first address of every segment: transfers cross 2^32.
const FIRST: u64 = (1 << 32) - 4;

/// The reference tag of a type 2 segment's first interval: they pass 2^32 too.
const FIRST_TAG: u32 = u32::MAX - 4;

const APPLICATION: u16 = 0x1234;

/// The bytes of an outcome behind the results of a job.
const OUTCOME: usize = 24;

pub struct Job {
    desc: Description,
    request: Request,
    command: Vec<u8>,
    /// The segment, or the buffer of a WRITE: what the command does not change.
    lent: RefCell<Vec<u8>>,
    /// Where the transfer lies in it.
    moved: Range<usize>,
    /// The buffer of a VERIFY that compares, which it does not change either.
    sent: RefCell<Vec<u8>>,
    /// The bytes of what the command changes: the buffer, or the segment of a
    /// WRITE.
    changed: usize,
    /// Where the transfer lies in that.
    written: Range<usize>,
}

/// A segment of `count` blocks of `block` bytes: of type 1 for exponent 0, else of
/// type 2.
pub fn described(block: usize, exponent: u32, count: usize) -> Description {
    let long = exponent > 0;
    Description {
        p: if long { 2 } else { 1 },
        b: block as u64,
        e: exponent.into(),
        w: FIRST,
        n: count as u64,
        ato: long.into(),
    }
}

impl Job {
    /// A request that is good, on a segment of `count` blocks of `block` bytes; in
    /// type 2 with 32-byte commands and all fields checked.
    pub fn new(block: usize, exponent: u32, count: usize, request: Request) -> Job {
        let desc = described(block, exponent, count);
        let transfer = request.blocks.len();
        let stored = block + (8 << exponent);
        let place = request.blocks.start * stored..request.blocks.end * stored;
        let brought = if request.code == 0 { block } else { stored } * transfer;
        let mut segment = good_segment(&desc);
        let mut sent = Vec::new();
        let (lent, moved, changed, written) = match request.operation {
            Operation::Read => (segment, place, brought, 0..brought),
            Operation::Verify => (segment, place, 0, 0..0),
            Operation::Compare => {
                sent = fetched(&desc, &request, &mut segment, brought);
                (segment, place, 0, 0..0)
            }
            Operation::Write if request.code == 0 => {
                (noise(brought), 0..brought, segment.len(), place)
            }
            Operation::Write => {
                let buffer = segment[place.clone()].to_vec();
                (buffer, 0..brought, segment.len(), place)
            }
        };
        let job = Job {
            command: command(&desc, &request),
            desc,
            request,
            lent: RefCell::new(lent),
            moved,
            sent: RefCell::new(sent),
            changed,
            written,
        };
        let (results, ..) = job.once(reference::execute);
        assert!(results.ends_with(&[0; OUTCOME]), "the request is good");
        job
    }

    /// Executes the command so many times; the results are what it changes, then
    /// the last outcome.
    fn execute(&self, execute: Execute, times: usize, results: &mut [u8]) {
        let lent = &mut self.lent.borrow_mut()[..];
        let sent = &mut self.sent.borrow_mut()[..];
        let (changed, last) = results.split_at_mut(self.changed);
        let (segment, buffer) = match self.request.operation {
            Operation::Write => (changed, lent),
            Operation::Read | Operation::Verify => (lent, changed),
            Operation::Compare => (lent, sent),
        };
        let mut outcome = Outcome::from(0);
        for _ in 0..times {
            outcome = execute(&self.desc, segment, &self.command, buffer);
        }
        let numbers = [outcome.answer, outcome.address, outcome.place];
        last.copy_from_slice(numbers.map(u64::to_le_bytes).as_flattened());
    }

    /// Whether both give the same where all is well, and where the last byte of
    /// user data of the transfer is another: then the fault or the difference is met
    /// last, or, by a WRITE that brings no fields, stored. Where something is sent to
    /// be compared, also if the last byte of that is another.
    pub fn agreed(&self) -> bool {
        let same = || self.once(archive::execute) == self.once(reference::execute);
        let same_with_another = |list: &RefCell<Vec<u8>>, at: usize| {
            list.borrow_mut()[at] ^= 1;
            let same = same();
            list.borrow_mut()[at] ^= 1;
            same
        };
        let sent = self.sent.borrow().len();
        same()
            && same_with_another(&self.lent, self.moved.end - 9)
            && (sent == 0 || same_with_another(&self.sent, sent - 1))
    }

    /// What the command leaves: the outcome and all of each list.
    fn once(&self, execute: Execute) -> (Vec<u8>, Vec<u8>, Vec<u8>) {
        let mut results = vec![0; self.changed + OUTCOME];
        self.execute(execute, 1, &mut results);
        let [lent, sent] = [&self.lent, &self.sent].map(|list| list.borrow().clone());
        (results, lent, sent)
    }

    /// The user data of the transfer.
    fn data(&self) -> usize {
        self.request.blocks.len() * self.desc.b as usize
    }
}

/// A job in a table.
pub struct Line {
    pub name: String,
    /// The units that one command does.
    pub units: usize,
    pub limit: f64,
    pub job: Job,
}

impl Line {
    fn case(&self, blocks: usize) -> Case<'_> {
        let job = &self.job;
        let times = repeats(blocks, job.data());
        let pass = |execute: Execute| -> Pass<'_> {
            Box::new(move |results| job.execute(execute, times, results))
        };
        Case {
            name: self.name.clone(),
            count: times * self.units,
            results: job.changed + OUTCOME,
            written: job.written.clone(),
            limit: Some(self.limit),
            ours: pass(archive::execute),
            other: pass(reference::execute),
        }
    }
}

/// A table of jobs.
pub struct Jobs<'a> {
    pub title: String,
    pub names: &'a str,
    pub unit: &'a str,
    pub lines: Vec<Line>,
}

impl Jobs<'_> {
    pub fn measure(&self, options: &Options, out: Output<'_>) -> io::Result<Verdict> {
        let mut verdict = Verdict::default();
        for line in self.lines.iter().filter(|line| !line.job.agreed()) {
            writeln!(out, "{}, {}: results differ", self.title, line.name)?;
            verdict.differ = true;
        }
        let cases = self.lines.iter().map(|line| line.case(options.blocks));
        let table = Table {
            title: self.title.clone(),
            ways: OURS_AND_RUST,
            names: self.names,
            unit: self.unit,
            cases: cases.collect(),
        };
        Ok(verdict.and(measure(out, options.rounds, table)?))
    }
}

/// A segment of which every interval is right.
pub fn good_segment(desc: &Description) -> Vec<u8> {
    let length = desc.segment_length().expect("a good description");
    let mut segment = vec![0; length as usize];
    let whole = Request {
        operation: Operation::Write,
        code: 0,
        blocks: 0..desc.n as usize,
    };
    let mut buffer = noise(whole.blocks.len() * desc.b as usize);
    let outcome = reference::execute(desc, &mut segment, &command(desc, &whole), &mut buffer);
    assert_eq!(outcome.answer, 0, "a fresh segment is written");
    segment
}

/// What a READ with the request's code fetches: a VERIFY that compares finds it alike.
fn fetched(desc: &Description, request: &Request, segment: &mut [u8], length: usize) -> Vec<u8> {
    let read = Request {
        operation: Operation::Read,
        code: request.code,
        blocks: request.blocks.clone(),
    };
    let mut buffer = vec![0; length];
    let outcome = reference::execute(desc, segment, &command(desc, &read), &mut buffer);
    assert_eq!(outcome.answer, 0, "a good segment is read");
    buffer
}

/// The bytes of a command: 32 for type 2, else 16.
fn command(desc: &Description, request: &Request) -> Vec<u8> {
    let address = (desc.w + request.blocks.start as u64).to_be_bytes();
    let length = (request.blocks.len() as u32).to_be_bytes();
    let byte_check = u8::from(request.operation == Operation::Compare);
    let protect = request.code << 5 | byte_check << 1;
    if desc.p != 2 {
        let operation = match request.operation {
            Operation::Read => 0x88,
            Operation::Write => 0x8A,
            Operation::Verify | Operation::Compare => 0x8F,
        };
        return [&[operation, protect], &address[..], &length, &[0, 0]].concat();
    }
    let action = match request.operation {
        Operation::Read => 0x09,
        Operation::Write => 0x0B,
        Operation::Verify | Operation::Compare => 0x0A,
    };
    let passed = (request.blocks.start as u32) << desc.e;
    [
        &[0x7F, 0, 0, 0, 0, 0, 0, 0x18, 0, action, protect, 0],
        &address[..],
        &FIRST_TAG.wrapping_add(passed).to_be_bytes(),
        &APPLICATION.to_be_bytes(),
        &[0xFF, 0xFF],
        &length,
    ]
    .concat()
}
