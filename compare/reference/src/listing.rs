//! The listing program: a record from standard input, lines to standard output.

use std::fmt::Write;

use crate::answer::{DESCRIPTION_BAD, RECORD_BAD, SEGMENT_LENGTH_WRONG};
use crate::command::{eight, two};
use crate::segment::{Description, Fault, Fields, Shape};

/// The bytes of a record before its segment.
const HEAD: usize = 15;

/// The bytes the program prints for this standard input. Every line ends with a
/// line feed, the last one and a refusal too.
pub fn listing(input: &[u8]) -> Vec<u8> {
    let text = match record(input) {
        Ok((desc, shape, segment)) => lines(&desc, &shape, segment),
        Err(answer) => format!("refused {answer}\n"),
    };
    text.into_bytes()
}

/// Takes the record apart, or refuses it.
fn record(input: &[u8]) -> Result<(Description, Shape, &[u8]), u64> {
    let (&length, body) = input.split_first_chunk().ok_or(RECORD_BAD)?;
    let length = u32::from_be_bytes(length);
    if length > 65_532 || (length as usize) < HEAD || body.len() != length as usize || body[0] != 1
    {
        return Err(RECORD_BAD);
    }
    let (head, segment) = body.split_at(HEAD);
    // A record does not say ATO, and a listing does not depend on it.
    let desc = Description {
        p: u64::from(head[1]),
        e: u64::from(head[2]),
        b: u64::from(two(head, 3)),
        w: eight(head, 5),
        n: u64::from(two(head, 13)),
        ato: 0,
    };
    let shape = desc.shape().ok_or(DESCRIPTION_BAD)?;
    if segment.len() != shape.total {
        return Err(SEGMENT_LENGTH_WRONG);
    }
    Ok((desc, shape, segment))
}

/// Header, one line an interval, totals.
fn lines(desc: &Description, shape: &Shape, segment: &[u8]) -> String {
    let mut text = String::from("lba interval guard app ref state\n");
    let (mut intervals, mut faults, mut skipped) = (0, 0, 0);
    if shape.p != 0 {
        for (block, address) in segment.chunks_exact(shape.stored).zip(desc.w..) {
            let escaped = shape.escaped(block);
            for (inside, interval) in block.chunks_exact(shape.step).enumerate() {
                let state = if escaped {
                    skipped += 1;
                    "skipped"
                } else {
                    let fault = shape.fault(interval, address);
                    faults += u64::from(fault.is_some());
                    match fault {
                        Some(Fault::Guard) => "guard",
                        Some(Fault::Reference) => "ref",
                        None => "ok",
                    }
                };
                intervals += 1;
                let fields = Fields::of(&interval[shape.data..]);
                line(
                    &mut text,
                    format_args!(
                        "{address} {inside} {:04x} {:04x} {:08x} {state}",
                        fields.guard, fields.application, fields.reference
                    ),
                );
            }
        }
    }
    line(
        &mut text,
        format_args!("intervals {intervals} faults {faults} skipped {skipped}"),
    );
    text
}

fn line(text: &mut String, line: std::fmt::Arguments<'_>) {
    writeln!(text, "{line}").expect("a string takes any line");
}
