//! The guard: the same bytes cut into intervals of several sizes.

use std::hint::black_box;
use std::io;

use crate::bytes::{BLOCK, RUN, noise};
use crate::options::Options;
use crate::table::{Case, OURS_AND_RUST, Output, Table, Verdict, measure};

/// The bytes of a guard.
const GUARD: usize = 2;

/// A size of interval, its limit in runs and its limit in single calls.
struct Size(usize, Option<f64>, Option<f64>);

const SIZES: [Size; 4] = [
    Size(4_096, Some(1.25), Some(1.25)),
    Size(512, Some(1.25), Some(1.25)),
    Size(64, None, None),
    Size(8, Some(2.00), Some(2.00)),
];

/// How many blocks are also put to both long divisions.
const DIVIDED: usize = 64;

pub fn run(options: &Options, out: Output<'_>) -> io::Result<Verdict> {
    let data = &noise(options.blocks * BLOCK)[..];
    let mut verdict = Verdict::default();
    for Size(size, ..) in SIZES {
        if let Some(place) = first_difference(data, size) {
            writeln!(
                out,
                "guard: interval {place} of {size} bytes has two guards"
            )?;
            verdict.differ = true;
        }
    }
    for lengths in UNFIT {
        if !refused(lengths) {
            writeln!(out, "guard: {lengths:?} is not refused as it must be")?;
            verdict.differ = true;
        }
    }
    let runs = Table {
        title: format!(
            "guard: {} blocks of {BLOCK} bytes, a call for each run of {RUN} bytes",
            options.blocks
        ),
        ways: OURS_AND_RUST,
        names: "bytes",
        unit: "interval",
        cases: SIZES
            .map(|Size(size, limit, _)| case(data, size, limit, our_runs, rust_runs))
            .into(),
    };
    let calls = Table {
        title: format!(
            "guard: {} blocks of {BLOCK} bytes, a call for each interval, each of ours \
             copying the table of 512 bytes",
            options.blocks
        ),
        ways: OURS_AND_RUST,
        names: "bytes",
        unit: "interval",
        cases: SIZES
            .map(|Size(size, _, limit)| case(data, size, limit, our_calls, rust_calls))
            .into(),
    };
    for table in [runs, calls] {
        verdict = verdict.and(measure(out, options.rounds, table)?);
    }
    Ok(verdict)
}

/// Puts the guards of the data's intervals of a size into a list of bytes.
type Guards = fn(&[u8], usize, &mut [u8]);

fn case(data: &[u8], size: usize, limit: Option<f64>, ours: Guards, rust: Guards) -> Case<'_> {
    let count = data.len() / size;
    Case {
        name: size.to_string(),
        count,
        results: count * GUARD,
        written: 0..count * GUARD,
        limit,
        ours: Box::new(move |results| ours(data, black_box(size), results)),
        other: Box::new(move |results| rust(data, black_box(size), results)),
    }
}

fn our_runs(data: &[u8], size: usize, results: &mut [u8]) {
    for (run, guards) in data.chunks(RUN).zip(results.chunks_mut(RUN / size * GUARD)) {
        // A refusal leaves the results as they were, and they are compared.
        archive::guards(run, size, guards);
    }
}

fn rust_runs(data: &[u8], size: usize, results: &mut [u8]) {
    for (run, guards) in data.chunks(RUN).zip(results.chunks_mut(RUN / size * GUARD)) {
        rust_guards(run, size, guards);
    }
}

fn our_calls(data: &[u8], size: usize, results: &mut [u8]) {
    each(data, size, results, archive::guard);
}

fn rust_calls(data: &[u8], size: usize, results: &mut [u8]) {
    each(data, size, results, rust_guard);
}

/// The reference's guards behind a call of its own, as the archive's are.
#[inline(never)]
fn rust_guards(data: &[u8], size: usize, out: &mut [u8]) {
    each(data, size, out, reference::guard);
}

/// The reference's guard behind a call of its own, as the archive's is.
#[inline(never)]
fn rust_guard(data: &[u8]) -> u16 {
    reference::guard(data)
}

#[inline(always)]
fn each(data: &[u8], size: usize, out: &mut [u8], guard: impl Fn(&[u8]) -> u16) {
    for (interval, place) in data.chunks_exact(size).zip(out.chunks_exact_mut(GUARD)) {
        place.copy_from_slice(&guard(interval).to_be_bytes());
    }
}

/// The place of the first interval whose guards are not all the same: the two by
/// table for every interval, the two by division for those of the first blocks.
fn first_difference(data: &[u8], size: usize) -> Option<usize> {
    let divided = DIVIDED * BLOCK / size;
    data.chunks_exact(size)
        .enumerate()
        .position(|(place, interval)| {
            let wanted = rust_guard(interval);
            archive::guard(interval) != wanted
                || place < divided
                    && (archive::guard_by_division(interval) != wanted
                        || reference::guard_by_division(interval) != wanted)
        })
}

/// Lengths that do not fit each other.
#[derive(Clone, Copy, Debug)]
struct Lengths {
    data: usize,
    size: usize,
    out: usize,
}

#[rustfmt::skip]
const UNFIT: [Lengths; 9] = [
    Lengths { data: 0, size: 0, out: 0 },
    Lengths { data: 16, size: 0, out: 0 },
    Lengths { data: 15, size: 8, out: 2 },
    Lengths { data: 17, size: 8, out: 4 },
    Lengths { data: 16, size: 8, out: 2 },
    Lengths { data: 16, size: 8, out: 5 },
    Lengths { data: 16, size: 8, out: 6 },
    Lengths { data: 0, size: 8, out: 2 },
    Lengths { data: 16, size: usize::MAX, out: 2 },
];

/// Whether the archive answers 4 to lengths that do not fit, and writes nothing.
fn refused(lengths: Lengths) -> bool {
    let data = vec![1; lengths.data];
    let before = vec![0xA5; lengths.out];
    let mut out = before.clone();
    archive::guards(&data, lengths.size, &mut out) == 4 && out == before
}
