//! What a command costs as its transfer grows, and as the segment around it does.

use std::io;

use crate::job::{Job, Jobs, Line, Operation, Request};
use crate::options::Options;
use crate::table::{Output, Verdict};

/// The block length of the segments.
const LENGTH: usize = 512;

const LIMIT: f64 = 1.25;

/// The blocks of the transfers in a segment of as many as the last has.
const TRANSFERS: [usize; 4] = [1, 16, 256, SEGMENT];
const SEGMENT: usize = 4_096;

/// The blocks of the segments around a transfer of as many as the first has.
const SEGMENTS: [usize; 3] = [TRANSFER, 1_024, 65_536];
const TRANSFER: usize = 16;

pub fn run(options: &Options, out: Output<'_>) -> io::Result<Verdict> {
    let transfers = Jobs {
        title: format!("growth: transfers in a segment of {SEGMENT} blocks of {LENGTH} bytes"),
        names: "blocks moved",
        unit: "byte",
        lines: lines(TRANSFERS, |moved| (SEGMENT, moved, moved * LENGTH)),
    };
    let segments = Jobs {
        title: format!("growth: a transfer of {TRANSFER} blocks of {LENGTH} bytes in segments"),
        names: "blocks in segment",
        unit: "command",
        lines: lines(SEGMENTS, |count| (count, TRANSFER, 1)),
    };
    let verdict = transfers.measure(options, out)?;
    Ok(verdict.and(segments.measure(options, out)?))
}

/// A line for each operation and size; of a size, `shape` tells the blocks of the
/// segment, those of the transfer in its middle, and the units of one command.
fn lines<const N: usize>(
    sizes: [usize; N],
    shape: impl Fn(usize) -> (usize, usize, usize),
) -> Vec<Line> {
    let mut lines = Vec::new();
    for operation in Operation::ALL {
        for size in sizes {
            let (count, moved, units) = shape(size);
            let start = (count - moved) / 2;
            let request = Request {
                operation,
                code: 0b000,
                blocks: start..start + moved,
            };
            lines.push(Line {
                name: format!("{operation:20} {size:5}"),
                units,
                limit: LIMIT,
                job: Job::new(LENGTH, 0, count, request),
            });
        }
    }
    lines
}
