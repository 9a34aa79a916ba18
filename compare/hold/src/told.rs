//! What the reference says of a call.

use reference::Description;

use crate::call::{Call, Function, Left};
use crate::pages::Pages;

const OTHERS: &str = "not the function's numbers and slices";

/// What a call must leave, and its answer number if it gives one.
pub struct Told {
    pub left: Left,
    pub answer: Option<u64>,
}

/// # Panics
/// If the call does not have its function's numbers and slices.
pub fn tell(call: &Call) -> Told {
    let mut lent = call.lent.clone();
    let mut slices: Vec<&mut [u8]> = lent.iter_mut().map(Vec::as_mut_slice).collect();
    let mut longer = call.zeros.map(|(number, count)| {
        let bytes = &call.lent[number];
        let mut pages = Pages::new(bytes.len() + count);
        pages.bytes_mut()[..bytes.len()].copy_from_slice(bytes);
        (number, bytes.len() + count, pages)
    });
    if let Some((number, length, pages)) = &mut longer {
        slices[*number] = &mut pages.bytes_mut()[..*length];
    }
    let (returned, places, answer) = call_reference(call.function, &call.numbers, &mut slices);
    if let Some((number, _, pages)) = longer {
        let length = lent[number].len();
        lent[number].copy_from_slice(&pages.bytes()[..length]);
    }
    Told {
        left: Left {
            returned,
            places,
            lent,
            trespassed: Vec::new(),
        },
        answer,
    }
}

/// The number handed back, the numbers in the places, the answer.
pub type Numbers = (u64, Vec<u64>, Option<u64>);

/// Calls the reference with a call's numbers and slices.
///
/// # Panics
/// If they are not those of the function.
pub fn call_reference(function: Function, numbers: &[u64], lent: &mut [&mut [u8]]) -> Numbers {
    match function {
        Function::Execute | Function::Fill | Function::Scrub => on_segment(numbers, lent),
        Function::Parity | Function::Rebuild | Function::Correct => on_stripe(numbers, lent),
        _ => on_bytes(function, numbers, lent),
    }
}

fn answered(answer: u64) -> Numbers {
    (answer, Vec::new(), Some(answer))
}

fn plain(number: u64) -> Numbers {
    (number, Vec::new(), None)
}

fn description(numbers: &[u64]) -> (Description, &[u64]) {
    let (&[p, b, e, w, n, ato], rest) = numbers.split_first_chunk().expect("a description");
    (Description { p, b, e, w, n, ato }, rest)
}

fn on_segment(numbers: &[u64], lent: &mut [&mut [u8]]) -> Numbers {
    let (desc, rest) = description(numbers);
    match (rest, lent) {
        (&[], [segment, command, buffer]) => {
            let outcome = reference::execute(&desc, segment, command, buffer);
            let places = vec![outcome.address, outcome.place];
            (outcome.answer, places, Some(outcome.answer))
        }
        (&[], [segment]) => answered(reference::fill(&desc, segment)),
        (&[place, blocks], [segment]) => {
            let scrubbed = reference::scrub(&desc, segment, place, blocks);
            let reference::Scrubbed {
                answer,
                next,
                judged,
                faults,
                first_fault,
            } = scrubbed;
            (
                answer,
                vec![next, judged, faults, first_fault],
                Some(answer),
            )
        }
        _ => panic!("{OTHERS}"),
    }
}

fn on_stripe(numbers: &[u64], lent: &mut [&mut [u8]]) -> Numbers {
    let (desc, rest) = description(numbers);
    answered(match (rest, lent) {
        (&[k], [members, out]) => reference::parity(&desc, k, members, out),
        (&[k, lost], [parts, out]) => reference::rebuild(&desc, k, lost, parts, out),
        (&[], [old, fresh, parity]) => reference::correct(&desc, old, fresh, parity),
        _ => panic!("{OTHERS}"),
    })
}

fn on_bytes(function: Function, numbers: &[u64], lent: &mut [&mut [u8]]) -> Numbers {
    match (function, numbers, lent) {
        (Function::Format, &[spt, protect, fmtpinfo, usage], []) => {
            let (answer, kind) = reference::format_choice(spt, protect, fmtpinfo, usage);
            (answer, vec![kind], Some(answer))
        }
        (Function::Guard, [], [data]) => plain(reference::guard(data).into()),
        (Function::GuardByDivision, [], [data]) => plain(reference::guard_by_division(data).into()),
        (Function::Guards, &[size], [data, out]) => answered(guards(data, size, out)),
        (Function::List, [], [input, out]) => list(input, out),
        (Function::Sense, &[number], []) => plain(sense(number)),
        _ => panic!("{OTHERS}"),
    }
}

/// The guards of a run of intervals: 0, or 4 where the lengths do not fit.
fn guards(data: &[u8], size: u64, out: &mut [u8]) -> u64 {
    let length = data.len() as u64;
    if size == 0 || !length.is_multiple_of(size) || out.len() as u64 != length / size * 2 {
        return 4;
    }
    // No interval is longer than the data, unless there is none.
    let intervals = data.chunks(size.min(length.max(1)) as usize);
    for (guard, interval) in out.chunks_exact_mut(2).zip(intervals) {
        guard.copy_from_slice(&reference::guard(interval).to_be_bytes());
    }
    0
}

/// As much of the listing as there is room for, and how long the whole is.
fn list(input: &[u8], out: &mut [u8]) -> Numbers {
    let listing = reference::listing(input);
    let room = out.len().min(listing.len());
    out[..room].copy_from_slice(&listing[..room]);
    (listing.len() as u64, Vec::new(), Some(refusal(&listing)))
}

/// The number a listing's only line refuses with, or 0.
fn refusal(listing: &[u8]) -> u64 {
    let number = listing.strip_prefix(b"refused ").unwrap_or(b"0\n");
    let digits = number.strip_suffix(b"\n").unwrap_or(number);
    digits
        .iter()
        .fold(0, |sum, digit| sum * 10 + u64::from(digit - b'0'))
}

fn sense(number: u64) -> u64 {
    match reference::sense(number) {
        Some((key, code, qualifier)) => u32::from_be_bytes([0, key, code, qualifier]).into(),
        None => 0,
    }
}
