//! A whole segment scrubbed a few blocks at a time, and at once.

use std::io;

use reference::{Description, Scrubbed};

use crate::bytes::{BLOCK, repeats};
use crate::job::{described, good_segment};
use crate::options::Options;
use crate::table::{Case, OURS_AND_RUST, Output, Pass, Table, Verdict, measure};

/// The block lengths with their exponents.
const BLOCKS: [(usize, u32); 6] = [(8, 0), (64, 0), (512, 0), (520, 3), (4_096, 0), (4_096, 3)];

const LIMIT: f64 = 1.25;

/// The most blocks of a segment, so that a step of as many goes through any at once.
const ALL: usize = 65_536;

const STEPS: [usize; 3] = [1, FEW, ALL];

/// From this step on its size may cost a tenth at most.
const FEW: usize = 16;
const FEW_LIMIT: f64 = 1.10;

/// An implementation of a step. Each is a type of its own, so that it is called as a
/// server calls it: by a pointer, the archive's would be called through a second function.
trait Scrub: Fn(&Description, &[u8], u64, u64) -> Scrubbed {}

impl<F: Fn(&Description, &[u8], u64, u64) -> Scrubbed> Scrub for F {}

/// The bytes of a segment's totals.
const TOTALS: usize = 40;

pub fn run(options: &Options, out: Output<'_>) -> io::Result<Verdict> {
    let segments = BLOCKS.map(|(block, exponent)| Segment::new(options.blocks, block, exponent));
    let steps = Table {
        title: "scrub: a segment gone through in steps".into(),
        ways: OURS_AND_RUST,
        names: "block e blocks step",
        unit: "block",
        cases: segments.iter().flat_map(Segment::beside_rust).collect(),
    };
    let at_once = Table {
        title: format!("scrub: ours in steps of {FEW} blocks and at once"),
        ways: ["few", "all"],
        names: "block e blocks",
        unit: "block",
        cases: segments.iter().map(Segment::beside_all).collect(),
    };
    let verdict = measure(out, options.rounds, steps)?;
    Ok(verdict.and(measure(out, options.rounds, at_once)?))
}

/// A segment to be scrubbed over and over.
struct Segment {
    desc: Description,
    /// Right but for the last block.
    bytes: Vec<u8>,
    /// How often a pass goes through it.
    times: usize,
}

impl Segment {
    /// As many blocks as a pass over `blocks` blocks has bytes for, if there may be so
    /// many in a segment.
    fn new(blocks: usize, block: usize, exponent: u32) -> Self {
        let count = (blocks * BLOCK / block).clamp(1, ALL);
        let desc = described(block, exponent, count);
        let mut bytes = good_segment(&desc);
        let stored = bytes.len() / count;
        bytes[(count - 1) * stored] ^= 0x10;
        Segment {
            desc,
            bytes,
            times: repeats(blocks, count * block),
        }
    }

    /// A line for each step.
    fn beside_rust(&self) -> [Case<'_>; STEPS.len()] {
        STEPS.map(|step| {
            let name = format!("{} {step:5}", self.name());
            let ours = self.pass(archive::scrub, step);
            let rust = self.pass(reference::scrub, step);
            self.case(name, LIMIT, [ours, rust])
        })
    }

    /// A line for what short steps take longer.
    fn beside_all(&self) -> Case<'_> {
        let passes = [FEW, ALL].map(|step| self.pass(archive::scrub, step));
        self.case(self.name(), FEW_LIMIT, passes)
    }

    fn name(&self) -> String {
        let Description { b, e, n, .. } = self.desc;
        format!("{b:5} {e} {n:6}")
    }

    fn case<'a>(&self, name: String, limit: f64, [ours, other]: [Pass<'a>; 2]) -> Case<'a> {
        Case {
            name,
            count: self.times * self.desc.n as usize,
            results: TOTALS,
            written: 0..TOTALS,
            limit: Some(limit),
            ours,
            other,
        }
    }

    /// Goes through the segment so often; the results are the last totals.
    fn pass<'a>(&'a self, scrub: impl Scrub + 'a, step: usize) -> Pass<'a> {
        Box::new(move |results| {
            let mut totals = [0; TOTALS / 8];
            for _ in 0..self.times {
                totals = self.totals(&scrub, step as u64);
            }
            results.copy_from_slice(totals.map(u64::to_le_bytes).as_flattened());
        })
    }

    /// The last answer and place, how the blocks judged differ from the distance moved,
    /// the faults of all steps, and the first fault.
    ///
    /// Blocks judged and faults are not both summed: the compiler would read the two at
    /// once, and such a read of what was written one by one holds up all that follows
    /// until the call has ended.
    fn totals(&self, scrub: &impl Scrub, step: u64) -> [u64; TOTALS / 8] {
        let (mut differ, mut faults, mut first_fault) = (0, 0, 0);
        let mut place = 0;
        loop {
            let found = scrub(&self.desc, &self.bytes, place, step);
            if faults == 0 {
                first_fault = found.first_fault;
            }
            faults += found.faults;
            differ |= found.judged ^ found.next.wrapping_sub(place);
            // One that stands still would never come to the end.
            if found.next <= place || found.next >= self.desc.n {
                return [found.answer, found.next, differ, faults, first_fault];
            }
            place = found.next;
        }
    }
}
