//! READ, WRITE and VERIFY, also one that compares, on blocks of several sizes.

use std::io;

use crate::bytes::RUN;
use crate::job::{Job, Jobs, Line, Operation, Request};
use crate::options::Options;
use crate::table::{Output, Verdict};

/// The block lengths, each with its limit.
const BLOCKS: [(usize, f64); 4] = [(8, 2.00), (512, 1.25), (520, 1.25), (4_096, 1.25)];

const EXPONENTS: [u32; 2] = [0, 3];

const CODES: [u8; 2] = [0b000, 0b001];

pub fn run(options: &Options, out: Output<'_>) -> io::Result<Verdict> {
    let mut verdict = Verdict::default();
    for operation in Operation::ALL {
        let jobs = Jobs {
            title: format!("{operation}: a command for {RUN} bytes of user data"),
            names: "code block e",
            unit: "block",
            lines: lines(operation),
        };
        verdict = verdict.and(jobs.measure(options, out)?);
    }
    Ok(verdict)
}

fn lines(operation: Operation) -> Vec<Line> {
    let mut lines = Vec::new();
    for code in CODES {
        for exponent in EXPONENTS {
            for (block, limit) in BLOCKS {
                let count = RUN / block;
                let request = Request {
                    operation,
                    code,
                    blocks: 0..count,
                };
                lines.push(Line {
                    name: format!("{code:03b} {block:5} {exponent}"),
                    units: count,
                    limit,
                    job: Job::new(block, exponent, count, request),
                });
            }
        }
    }
    lines
}
