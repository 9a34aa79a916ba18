//! Faults put into a library on purpose.

use hold::call::Function;
use hold::compare::Difference;
use hold::fence::Way;
use hold::trial::Trial;

use crate::classes::systematic;
use crate::library::{Passing, Planted};

/// The difference that the systematic calls find, in this function.
fn found(function: Function, fault: impl Fn(Passing<'_>) -> u64) -> Box<Difference> {
    let library = Planted(fault);
    let mut trial = Trial::new(&library);
    let held = systematic(function)(&mut |call| trial.put(call));
    let difference = held.expect_err("the fault is not found");
    assert_eq!(difference.call.function, function);
    difference
}

/// The same, after random calls have found it too.
fn is_found(function: Function, fault: impl Fn(Passing<'_>) -> u64) -> Box<Difference> {
    let library = Planted(&fault);
    let held = Trial::new(&library).random(1, 60_000);
    let difference = held.expect_err("random calls do not find the fault");
    assert_eq!(difference.call.function, function);
    found(function, fault)
}

/// A READ, WRITE or VERIFY whose byte 0 or service action is one of these.
fn is_command(call: &Passing<'_>, names: [u8; 4]) -> bool {
    if call.function != Function::Execute {
        return false;
    }
    let command = call.bytes(1);
    let long = command.len() == 32 && command[0] == 0x7F && command[9] == names[3];
    long || command
        .first()
        .is_some_and(|first| names[..3].contains(first))
}

const READ: [u8; 4] = [0x28, 0xA8, 0x88, 0x09];
const WRITE: [u8; 4] = [0x2A, 0xAA, 0x8A, 0x0B];

#[test]
fn a_wrong_guard_bit() {
    is_found(Function::Guard, |call| {
        let wrong = call.function == Function::Guard && call.bytes(0).len() == 5;
        call.honest() ^ u64::from(wrong)
    });
    is_found(Function::GuardByDivision, |call| {
        let wrong = call.function == Function::GuardByDivision && call.bytes(0).len() == 64;
        call.honest() ^ u64::from(wrong)
    });
}

#[test]
fn a_guard_of_a_run_in_the_wrong_order() {
    is_found(Function::Guards, |call| {
        let answer = call.honest();
        if call.function == Function::Guards && answer == 0 && call.lent[1].length == 6 {
            let [high, low, ..] = call.bytes(1)[..] else {
                unreachable!()
            };
            call.write(1, 0, low);
            call.write(1, 1, high);
        }
        answer
    });
}

#[test]
fn a_byte_behind_a_buffer() {
    let difference = is_found(Function::Execute, |call| {
        let answer = call.honest();
        if is_command(&call, READ) && answer == 0 && call.lent[2].length > 0 {
            call.turn(2, call.lent[2].length as isize);
        }
        answer
    });
    assert_eq!(difference.got.trespassed, [2]);
    assert_eq!(difference.got.lent, difference.wanted.lent);
}

#[test]
fn a_byte_before_a_segment() {
    let difference = is_found(Function::Fill, |call| {
        let answer = call.honest();
        if call.function == Function::Fill && answer == 0 {
            call.turn(0, -1);
        }
        answer
    });
    assert_eq!(difference.got.trespassed, [0]);
}

#[test]
fn a_number_beside_a_place() {
    let difference = is_found(Function::Format, |call| {
        let answer = call.honest();
        if call.function == Function::Format {
            // SAFETY: a fence stands behind each place.
            unsafe { *call.places[0].add(1) = 0 };
        }
        answer
    });
    assert_eq!(difference.got.trespassed, [0]);
}

#[test]
fn a_place_that_a_refusal_leaves() {
    is_found(Function::Execute, |call| {
        if call.function != Function::Execute {
            return call.honest();
        }
        // SAFETY: the places are lent.
        let before = unsafe { *call.places[1] };
        let answer = call.honest();
        if answer == 7 {
            unsafe { *call.places[1] = before };
        }
        answer
    });
}

#[test]
fn bytes_that_are_only_read() {
    is_found(Function::Execute, |call| {
        let answer = call.honest();
        if is_command(&call, READ) && answer == 0 {
            call.turn(1, 1);
        }
        answer
    });
    is_found(Function::Correct, |call| {
        let answer = call.honest();
        if call.function == Function::Correct && answer == 0 {
            call.turn(1, 0);
        }
        answer
    });
}

#[test]
fn a_buffer_half_filled_before_a_fault() {
    is_found(Function::Execute, |call| {
        let answer = call.honest();
        if is_command(&call, READ) && answer == 8 {
            call.turn(2, 0);
        }
        answer
    });
}

/// Where byte 0 of the blocks' first application tag stands, of type 1 alone.
fn first_application(call: &Passing<'_>) -> Option<usize> {
    (call.numbers[0] == 1).then(|| call.numbers[1] as usize + 2)
}

#[test]
fn an_escape_applied_on_write() {
    is_found(Function::Execute, |call| {
        let answer = call.honest();
        if is_command(&call, WRITE) && matches!(answer, 8..=10) {
            let tag = first_application(&call).map(|at| call.bytes(2)[at..at + 2].to_vec());
            // SAFETY: the places are lent.
            if tag.is_some_and(|tag| tag == [0xFF; 2]) && unsafe { *call.places[1] } == 0 {
                unsafe { *call.places[0] = 0 };
                return 0;
            }
        }
        answer
    });
}

#[test]
fn an_escape_of_type_1_on_type_3() {
    is_found(Function::Execute, |mut call| {
        let single = call.function == Function::Execute && call.numbers[2] == 0;
        // Under code 100 the two types differ in the escape alone.
        if single && call.numbers[0] == 3 && is_command(&call, READ) {
            let protect = call.bytes(1).get(1).map_or(0, |byte| byte >> 5);
            call.numbers[0] = if protect == 0b100 { 1 } else { 3 };
        }
        call.honest()
    });
}

#[test]
fn another_interval_named() {
    is_found(Function::Execute, |call| {
        let answer = call.honest();
        if call.function == Function::Execute && answer == 10 && call.numbers[2] > 0 {
            // SAFETY: the places are lent.
            unsafe { *call.places[1] >>= call.numbers[2] };
        }
        answer
    });
}

#[test]
fn numbers_cut_to_32_bits() {
    for place in 0..6 {
        is_found(Function::Execute, |mut call| {
            if call.function == Function::Execute {
                call.numbers[place] &= 0xFFFF_FFFF;
            }
            call.honest()
        });
    }
}

#[test]
fn a_null_pointer_refused() {
    let difference = is_found(Function::Execute, |call| {
        let null = call.lent.iter().any(|lent| lent.pointer.is_null());
        let answer = call.honest();
        if null && call.function == Function::Execute {
            return 4;
        }
        answer
    });
    assert_eq!(difference.way, Way::BehindPage);
}

#[test]
fn a_lost_part_that_is_used() {
    is_found(Function::Rebuild, |mut call| {
        let answer = call.honest();
        if call.function == Function::Rebuild && answer == 0 && call.numbers[7] == 16 {
            call.numbers[7] = 15;
            call.honest();
        }
        answer
    });
}

#[test]
fn a_last_byte_of_parity_left() {
    is_found(Function::Parity, |call| {
        let last = call.lent.last().map_or(0, |out| out.length).wrapping_sub(1);
        let parity = call.function == Function::Parity && last != usize::MAX;
        let before = parity.then(|| call.bytes(1)[last]);
        let answer = call.honest();
        if let Some(before) = before {
            call.write(1, last, before);
        }
        answer
    });
}

#[test]
fn a_type_with_a_refusal() {
    is_found(Function::Format, |call| {
        let answer = call.honest();
        if call.function == Function::Format && answer == 12 {
            // SAFETY: the place is lent.
            unsafe { *call.places[0] = 1 };
        }
        answer
    });
}

#[test]
fn a_listing_that_ends_early() {
    is_found(Function::List, |call| {
        let length = call.honest();
        length - u64::from(call.function == Function::List && length > 100)
    });
    is_found(Function::List, |call| {
        let length = call.honest();
        if call.function == Function::List && call.lent[1].length as u64 > length {
            call.turn(1, length as isize);
        }
        length
    });
}

#[test]
fn a_sense_of_another_answer() {
    is_found(Function::Sense, |mut call| {
        if call.function == Function::Sense {
            call.numbers[0] &= 0xFFFF_FFFF;
        }
        call.honest()
    });
}

#[test]
fn a_difference_shows_the_call_and_both_results() {
    let difference = found(Function::Format, |call| {
        let answer = call.honest();
        if call.function == Function::Format && call.numbers == [3, 1, 3, 1] {
            return 12;
        }
        answer
    });
    assert_eq!(
        difference.to_string(),
        "function format\n\
         numbers [3, 1, 3, 1]\n\
         lent between fences\n\
         reference:\n  returned 0, places [3]\n\
         library:\n  returned 12, places [3]\n"
    );
    let difference = found(Function::Fill, |call| {
        let answer = call.honest();
        if call.function == Function::Fill && answer == 0 {
            call.turn(0, 2);
            call.turn(0, call.lent[0].length as isize);
        }
        answer
    });
    let shown = difference.to_string();
    assert!(shown.contains("lent 0 parts at byte 2:\n"), "{shown}");
    assert!(shown.contains("  wrote outside lent 0\n"), "{shown}");
    assert!(
        shown.contains("library   6 bytes 010000000000\n"),
        "{shown}"
    );
}
