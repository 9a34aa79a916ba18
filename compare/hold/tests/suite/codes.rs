//! Faults of the table of protect codes: a row in the place of another, and in one
//! row guard, application or reference turned. The systematic calls alone must find
//! each.

use hold::call::Function;
use hold::compare::Difference;
use hold::executes;

use crate::classes::{Words, found_by};
use crate::library::Passing;

/// The table's lines: the codes that have the same columns.
const LINES: [&[u8]; 6] = [
    &[0b000],
    &[0b001, 0b101],
    &[0b010],
    &[0b011],
    &[0b100],
    &[0b110, 0b111],
];

/// The columns guard, application and reference, by the answer to a wrong field,
/// and under which of the codes that are served it is checked.
const COLUMNS: [(u64, &[u8]); 3] = [
    (8, &[0b000, 0b001, 0b100, 0b101]),
    (9, &[0b000, 0b001, 0b010, 0b101]),
    (10, &[0b000, 0b001, 0b010, 0b101]),
];

const VERIFY: u8 = 2;

/// The words of a command with this code.
fn asking(call: &Passing<'_>, code: u8) -> Option<Words> {
    let command = call.bytes(1);
    Words::of(command).filter(|words| command[words.protect] >> 5 == code)
}

/// What an honest library does with a call whose command has another code.
fn with_code(call: &Passing<'_>, place: usize, code: u8) -> u64 {
    let mut command = call.bytes(1).to_vec();
    command[place] = command[place] & 0x1F | code << 5;
    call.honest_with_bytes(1, &mut command)
}

fn found(fault: impl Fn(&Passing<'_>) -> u64) -> Box<Difference> {
    found_by(executes::each, Function::Execute, fault)
}

/// Whether the type rules go by the number of the code, whatever its row says.
fn types_decide(call: &Passing<'_>) -> bool {
    match call.numbers[0] {
        0 => true,
        2 => call.lent[1].length < 32,
        _ => false,
    }
}

#[test]
fn a_row_in_the_place_of_another() {
    for line in LINES {
        for other in LINES.into_iter().filter(|other| *other != line) {
            for &code in line {
                found(|call| match asking(call, code) {
                    Some(words) if !types_decide(call) => with_code(call, words.protect, other[0]),
                    _ => call.honest(),
                });
            }
        }
    }
}

/// Of a VERIFY with this code that does not compare, the place of the protect byte.
/// It moves nothing and has no buffer, so its answer shows what is checked.
fn verifies(call: &Passing<'_>, code: u8) -> Option<usize> {
    let words = asking(call, code)?;
    let compares = call.bytes(1)[words.protect] >> 1 & 0b11 == 0b01;
    (words.operation == VERIFY && !compares).then_some(words.protect)
}

#[test]
fn a_checked_field_passed_over() {
    for (wrong, checked) in COLUMNS {
        for &code in checked {
            let difference = found(|call| {
                let answer = call.honest();
                if answer != wrong || verifies(call, code).is_none() {
                    return answer;
                }
                for &place in call.places {
                    // SAFETY: the places are lent.
                    unsafe { *place = 0 };
                }
                0
            });
            assert_eq!(difference.wanted.returned, wrong);
        }
    }
}

#[test]
fn a_field_checked_that_the_code_leaves_out() {
    for (wrong, checked) in COLUMNS {
        for code in (0b000..=0b101).filter(|code| !checked.contains(code)) {
            let difference = found(|call| {
                let answer = call.honest();
                let Some(place) = verifies(call, code).filter(|_| answer == 0) else {
                    return answer;
                };
                match with_code(call, place, 0b001) {
                    answer if answer == wrong => answer,
                    _ => call.honest(),
                }
            });
            assert_eq!(difference.wanted.returned, 0);
            assert_eq!(difference.got.returned, wrong);
        }
    }
}
