//! Stripes: making parity, rebuilding a lost part, correcting parity.

use std::io;
use std::ops::Range;

use reference::Description;

use crate::bytes::{BLOCK, noise, repeats};
use crate::options::Options;
use crate::table::{Case, OURS_AND_RUST, Output, Pass, Table, Verdict, measure};

/// Nine tenths of the speed.
const LIMIT: f64 = 1.0 / 0.9;

const MEMBERS: [usize; 2] = [4, 16];

/// The blocks of a member: in stripes that stay in the cache, and in large ones.
const BLOCKS: [usize; 2] = [4, 2_048];

/// The bytes of a stored block of type 1.
const STORED: usize = BLOCK + 8;

/// The bytes of an answer behind the results.
const ANSWER: usize = 8;

pub fn run(options: &Options, out: Output<'_>) -> io::Result<Verdict> {
    let [.., members] = MEMBERS;
    let [.., blocks] = BLOCKS;
    let parts = &noise((members + 1) * blocks * STORED)[..];
    let stripes = BLOCKS.map(|count| Stripe::new(options.blocks, count, parts));
    let table = Table {
        title: format!("stripes: blocks of {BLOCK} bytes, members small and large"),
        ways: OURS_AND_RUST,
        names: "parts blocks",
        unit: "block",
        cases: stripes.iter().flat_map(Stripe::cases).collect(),
    };
    measure(out, options.rounds, table)
}

/// Makes a part in the list lent to it and hands back the answer.
type Making<'a> = Box<dyn Fn(&mut [u8]) -> u64 + 'a>;

/// Both implementations of each function.
type Parity = fn(&Description, u64, &[u8], &mut [u8]) -> u64;
type Rebuild = fn(&Description, u64, u64, &[u8], &mut [u8]) -> u64;
type Correct = fn(&Description, &[u8], &[u8], &mut [u8]) -> u64;

/// Stripes whose members have so many blocks.
struct Stripe<'a> {
    desc: Description,
    /// The bytes of a member.
    long: usize,
    parts: &'a [u8],
    /// The blocks that a pass goes through.
    blocks: usize,
}

impl<'a> Stripe<'a> {
    fn new(blocks: usize, count: usize, parts: &'a [u8]) -> Self {
        Stripe {
            desc: Description {
                p: 1,
                b: BLOCK as u64,
                e: 0,
                w: 0,
                n: count as u64,
                ato: 0,
            },
            long: count * STORED,
            parts,
            blocks,
        }
    }

    fn cases(&self) -> Vec<Case<'_>> {
        let parity = MEMBERS.map(|k| {
            let ways: [Parity; 2] = [archive::parity, reference::parity];
            let makings = ways.map(|way| self.parity(way, k));
            self.case("parity", k, 0..self.long, makings)
        });
        let rebuild = MEMBERS.map(|k| {
            let ways: [Rebuild; 2] = [archive::rebuild, reference::rebuild];
            let makings = ways.map(|way| self.rebuild(way, k));
            self.case("rebuild", k, 0..self.long, makings)
        });
        let ways: [Correct; 2] = [archive::correct, reference::correct];
        let correct = self.case("correct", 2, 0..0, ways.map(|way| self.correct(way)));
        parity.into_iter().chain(rebuild).chain([correct]).collect()
    }

    fn parity(&self, way: Parity, k: usize) -> Making<'_> {
        let members = &self.parts[..k * self.long];
        Box::new(move |out| way(&self.desc, k as u64, members, out))
    }

    fn rebuild(&self, way: Rebuild, k: usize) -> Making<'_> {
        let parts = &self.parts[..(k + 1) * self.long];
        let lost = k as u64 / 2;
        Box::new(move |out| way(&self.desc, k as u64, lost, parts, out))
    }

    fn correct(&self, way: Correct) -> Making<'_> {
        let (old, rest) = self.parts.split_at(self.long);
        let fresh = &rest[..self.long];
        Box::new(move |parity| way(&self.desc, old, fresh, parity))
    }

    /// A line for what goes through `k` parts to make one.
    fn case<'b>(
        &self,
        what: &str,
        k: usize,
        written: Range<usize>,
        [ours, rust]: [Making<'b>; 2],
    ) -> Case<'b> {
        let times = repeats(self.blocks, k * self.long);
        Case {
            name: format!("{what:7} {k:2} {:5}", self.desc.n),
            count: times * self.desc.n as usize,
            results: self.long + ANSWER,
            written,
            limit: Some(LIMIT),
            ours: pass(times, ours),
            other: pass(times, rust),
        }
    }
}

/// Makes a part so many times; the results are its bytes and the last answer.
fn pass(times: usize, making: Making<'_>) -> Pass<'_> {
    Box::new(move |results| {
        let (part, last) = results.split_at_mut(results.len() - ANSWER);
        let mut answer = 0;
        for _ in 0..times {
            answer = making(part);
        }
        last.copy_from_slice(&answer.to_le_bytes());
    })
}
