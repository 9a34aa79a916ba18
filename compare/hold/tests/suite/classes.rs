//! Classes of faults that only inputs chosen for them show: two refusals at once,
//! great numbers, lengths that are right only when they are cut. The systematic
//! calls alone must find each.

use hold::call::{Function, Lent};
use hold::compare::Difference;
use hold::trial::{Part, Trial};
use hold::{executes, formats, guards, listings, scrubs, stripes};

use crate::library::{Passing, Planted};

/// Whether something is so of a call.
type Whether = fn(&Passing<'_>) -> bool;

/// The systematic calls of a function and its like, the greatest apart.
pub fn systematic(function: Function) -> Part {
    match function {
        Function::Execute => executes::each,
        Function::Format | Function::Fill => formats::each,
        Function::Scrub => scrubs::each,
        Function::Parity | Function::Rebuild | Function::Correct => stripes::each,
        Function::List => listings::each,
        _ => guards::each,
    }
}

/// The difference that a part of the systematic calls finds, in this function.
pub fn found_by(
    part: Part,
    function: Function,
    fault: impl Fn(&Passing<'_>) -> u64,
) -> Box<Difference> {
    let library = Planted(|call: Passing<'_>| {
        if call.function == function {
            fault(&call)
        } else {
            call.honest()
        }
    });
    let mut trial = Trial::new(&library);
    let held = part(&mut |call| trial.put(call));
    let difference = held.expect_err("the fault is not found");
    assert_eq!(difference.call.function, function);
    difference
}

const STRIPES: [Function; 3] = [Function::Parity, Function::Rebuild, Function::Correct];

/// The low bits of a number.
fn cut(number: usize, bits: u32) -> usize {
    number & ((1 << bits) - 1)
}

#[test]
fn a_stripe_refused_with_11_before_1() {
    let unfit: [(&[Function], Whether); 5] = [
        (&STRIPES, |call| call.numbers[0] == 0),
        (&STRIPES[..2], |call| !(1..=16).contains(&call.numbers[6])),
        (&STRIPES[1..2], |call| call.numbers[7] > call.numbers[6]),
        (&STRIPES, |call| call.lent[1].length == 0),
        (&STRIPES[2..], |call| {
            call.lent[0].length != call.lent[2].length
        }),
    ];
    for (functions, unfit) in unfit {
        for &function in functions {
            let difference = found_by(stripes::pairs, function, |call| match call.honest() {
                1 if unfit(call) => 11,
                answer => answer,
            });
            assert_eq!(
                (difference.wanted.returned, difference.got.returned),
                (1, 11)
            );
        }
    }
}

#[test]
fn a_number_of_members_cut() {
    for function in [Function::Parity, Function::Rebuild] {
        for bits in [5, 8, 16, 32, 63] {
            found_by(stripes::each, function, |call| {
                let k = call.numbers[6] % (1 << bits);
                let parts = k + u64::from(function == Function::Rebuild);
                let fits = call.lent[0].length as u64 == parts * call.lent[1].length as u64;
                match call.honest() {
                    11 if (1..=16).contains(&k) && fits => 0,
                    answer => answer,
                }
            });
        }
    }
}

/// The number that a listing refuses with, 0 for a listing.
fn refusal(input: &[u8]) -> u64 {
    let text = String::from_utf8(reference::listing(input)).expect("letters");
    let number = text
        .strip_prefix("refused ")
        .map(|number| number.trim_end());
    number.map_or(0, |number| number.parse().expect("a number"))
}

/// Prints other text than the listing.
fn print(call: &Passing<'_>, text: &[u8]) -> u64 {
    for (place, &byte) in text.iter().enumerate().take(call.lent[1].length) {
        call.write(1, place, byte);
    }
    text.len() as u64
}

#[test]
fn a_record_refused_with_1_or_2_before_13() {
    // What another order does not look at first, made right.
    let repairs: [fn(&mut [u8]); 2] = [
        |input| input[4] = 1,
        |input| {
            let length = input.len() as u32 - 4;
            input[..4].copy_from_slice(&length.to_be_bytes());
        },
    ];
    for repair in repairs {
        for early in [1, 2] {
            found_by(listings::pairs, Function::List, |call| {
                let mut input = call.bytes(0).to_vec();
                if input.len() < 19 || refusal(&input) != 13 {
                    return call.honest();
                }
                repair(&mut input);
                if refusal(&input) == early {
                    return call.honest_with_bytes(0, &mut input);
                }
                call.honest()
            });
        }
    }
}

#[test]
fn a_record_refused_with_2_before_1() {
    found_by(listings::pairs, Function::List, |call| {
        let input = call.bytes(0);
        // Of a type 1 record with a bad address: the one length that is right.
        if refusal(input) == 1 && input.len() > 19 && input[5] == 1 && input[9] >= 0x80 {
            let two = |at: usize| usize::from(u16::from_be_bytes([input[at], input[at + 1]]));
            if input.len() - 19 != (two(7) + 8) * two(17) {
                return print(call, b"refused 2\n");
            }
        }
        call.honest()
    });
}

/// A command's words, of those that are served and have the right length.
pub struct Words {
    /// READ 0, WRITE 1, VERIFY 2.
    pub operation: u8,
    /// Where the protect byte stands.
    pub protect: usize,
    pub address: u64,
    pub length: u64,
    /// Where T stands in the bytes.
    pub place: std::ops::Range<usize>,
}

impl Words {
    pub fn of(command: &[u8]) -> Option<Self> {
        let (at, place) = match command.len() {
            10 => (2..6, 7..9),
            12 => (2..6, 6..10),
            16 => (2..10, 10..14),
            32 => (12..20, 28..32),
            _ => return None,
        };
        let number = |bytes: &[u8]| {
            bytes
                .iter()
                .fold(0, |sum, &byte| sum << 8 | u64::from(byte))
        };
        Some(Words {
            operation: match command[if command.len() == 32 { 9 } else { 0 }] {
                0x28 | 0xA8 | 0x88 | 0x09 => 0,
                0x2A | 0xAA | 0x8A | 0x0B => 1,
                0x2F | 0xAF | 0x8F | 0x0A => 2,
                _ => return None,
            },
            protect: if command.len() == 32 { 10 } else { 1 },
            address: number(&command[at]),
            length: number(&command[place.clone()]),
            place,
        })
    }
}

#[test]
fn a_command_refused_in_another_order() {
    // What is answered, what comes first now, and whether that is wrong too.
    let orders: [(u64, u64, Whether); 9] = [
        (1, 2, |call| call.lent[0].length % 2 == 1),
        (1, 3, |call| call.lent[1].length == 0),
        (2, 3, |call| call.lent[1].length == 0),
        (2, 5, |call| call.bytes(1).first() == Some(&0x68)),
        (3, 6, |call| {
            call.bytes(1).get(1).is_some_and(|byte| byte >> 6 == 3)
        }),
        (5, 7, |call| address_is_low(call)),
        (6, 7, |call| address_is_low(call)),
        (6, 4, |call| call.lent[2].length % 2 == 1),
        (7, 4, |call| call.lent[2].length % 2 == 1),
    ];
    for (answered, early, also) in orders {
        let difference = found_by(executes::order::each, Function::Execute, |call| match call
            .honest()
        {
            answer if answer == answered && also(call) => early,
            answer => answer,
        });
        let returned = (difference.wanted.returned, difference.got.returned);
        assert_eq!(returned, (answered, early));
    }
}

fn address_is_low(call: &Passing<'_>) -> bool {
    Words::of(call.bytes(1)).is_some_and(|words| words.address < call.numbers[3])
}

/// S of a description that the library has found good.
pub fn stored(call: &Passing<'_>) -> usize {
    let fields = if call.numbers[0] == 0 {
        0
    } else {
        8 << call.numbers[2]
    };
    call.numbers[1] as usize + fields
}

#[test]
fn a_place_cut() {
    for bits in [8, 10, 15, 16, 18] {
        found_by(executes::large::every_count, Function::Execute, |call| {
            let answer = call.honest();
            // SAFETY, here and below: the places are lent.
            unsafe { *call.places[1] &= (1 << bits) - 1 };
            answer
        });
    }
}

#[test]
fn an_address_cut() {
    for bits in [8, 10, 15] {
        found_by(executes::large::every_count, Function::Execute, |call| {
            let answer = call.honest();
            if matches!(answer, 8..=10) {
                let first = call.numbers[3];
                unsafe { *call.places[0] = first + (*call.places[0] - first) % (1 << bits) };
            }
            answer
        });
    }
}

#[test]
fn a_great_address_cut() {
    for bits in [8, 16, 31, 32, 33, 48, 62] {
        found_by(executes::large::every_address, Function::Execute, |call| {
            let answer = call.honest();
            unsafe { *call.places[0] &= (1 << bits) - 1 };
            answer
        });
    }
}

#[test]
fn a_fault_of_great_blocks_passed_over() {
    for bits in [4, 9, 12] {
        let part = executes::large::every_block_length;
        found_by(part, Function::Execute, |call| match call.honest() {
            8..=10 if call.numbers[1] >> bits > 0 => 0,
            answer => answer,
        });
        for state in ["guard", "ref", "skipped"] {
            found_by(listings::large, Function::List, |call| {
                let input = call.bytes(0);
                let b = input
                    .get(7..9)
                    .map_or(0, |b| u16::from_be_bytes([b[0], b[1]]));
                if b >> bits == 0 || refusal(input) != 0 {
                    return call.honest();
                }
                let text = String::from_utf8(reference::listing(input)).expect("letters");
                let other = text.replace(&format!(" {state}\n"), " ok\n");
                print(call, other.as_bytes())
            });
        }
    }
}

/// The segment with one bit of each interval's marks of an escape taken as set.
fn marked(call: &Passing<'_>, bit: usize) -> Vec<u8> {
    let [b, n] = [call.numbers[1], 1 << call.numbers[2]].map(|number| number as usize);
    let mut segment = call.bytes(0).to_vec();
    for interval in segment.chunks_exact_mut(b / n + 8) {
        interval[b / n + 2 + bit / 8] |= 1 << (bit % 8);
    }
    segment
}

#[test]
fn a_part_of_the_marks_taken_for_an_escape() {
    for (p, bits) in [(1, 16), (2, 16), (3, 48)] {
        for bit in 0..bits {
            found_by(executes::every_mark, Function::Execute, |call| {
                if call.numbers[0] == p && matches!(call.honest(), 8..=10) {
                    return call.honest_with_bytes(0, &mut marked(call, bit));
                }
                call.honest()
            });
        }
    }
}

/// Works on the blocks at an offset that is cut to so many bits.
fn offset_cut(call: &Passing<'_>, operation: u8, bits: u32) -> u64 {
    let Some(words) = Words::of(call.bytes(1)).filter(|words| words.operation == operation) else {
        return call.honest();
    };
    let offset = words.address.wrapping_sub(call.numbers[3]) as usize;
    let (from, length) = (
        offset.wrapping_mul(stored(call)),
        words.length as usize * stored(call),
    );
    let taken = cut(from, bits);
    if from == taken || from.saturating_add(length) > call.lent[0].length {
        return call.honest();
    }
    let mut segment = call.bytes(0).to_vec();
    let write = operation == 1;
    if !write {
        segment.copy_within(taken..taken + length, from);
        return call.honest_with_bytes(0, &mut segment);
    }
    let answer = call.honest_with_bytes(0, &mut segment);
    for place in 0..length {
        call.write(0, taken + place, segment[from + place]);
    }
    answer
}

#[test]
fn an_offset_cut_to_few_bits() {
    for operation in 0..3 {
        for bits in [8, 10, 15, 16] {
            found_by(executes::large::every_offset, Function::Execute, |call| {
                offset_cut(call, operation, bits)
            });
        }
    }
}

#[test]
fn an_offset_cut_to_27_bits() {
    for operation in 0..2 {
        found_by(executes::large::most, Function::Execute, |call| {
            offset_cut(call, operation, 27)
        });
    }
}

#[test]
fn a_segment_length_cut() {
    for (part, function, bits) in [
        (executes::large::every_count as Part, Function::Execute, 16),
        (executes::large::more_than_24_bits, Function::Execute, 24),
        (executes::large::most, Function::Execute, 27),
        (scrubs::every_count, Function::Scrub, 16),
        (scrubs::more_than_24_bits, Function::Scrub, 24),
        (scrubs::most, Function::Scrub, 28),
    ] {
        // A right segment is refused where N × S is cut.
        found_by(part, function, |call| match call.honest() {
            0 if call.lent[0].length >> bits > 0 => 2,
            answer => answer,
        });
    }
    for bits in [8, 12, 16, 20, 24, 27, 28] {
        for (part, function) in [
            (executes::large::every_cut as Part, Function::Execute),
            (formats::large, Function::Fill),
            (scrubs::every_cut, Function::Scrub),
            (stripes::large, Function::Parity),
            (stripes::large, Function::Rebuild),
            (stripes::large, Function::Correct),
        ] {
            // A short one is taken where N × S is cut.
            found_by(part, function, |call| {
                let last = match function {
                    Function::Execute => 0,
                    _ => call.lent.len() - 1,
                };
                let answer = call.honest();
                let length = (call.numbers[4] as usize).wrapping_mul(stored(call));
                let fits = length >> bits > 0 && cut(length, bits) == call.lent[last].length;
                if fits && matches!(answer, 2 | 11) {
                    0
                } else {
                    answer
                }
            });
        }
    }
}

#[test]
fn a_transfer_length_cut() {
    for bits in [8, 10, 15, 16] {
        for size in [10, 12, 16, 32] {
            // Nothing is left of 16 bits of a 10-byte command's length to cut.
            if (size, bits) == (10, 16) {
                continue;
            }
            found_by(executes::large::every_length, Function::Execute, |call| {
                let mut command = call.bytes(1).to_vec();
                if let Some(words) = Words::of(&command).filter(|_| command.len() == size)
                    && words.length <= 65_536
                {
                    let bytes = (cut(words.length as usize, bits) as u64).to_be_bytes();
                    let width = words.place.len();
                    command[words.place].copy_from_slice(&bytes[8 - width..]);
                }
                call.honest_with_bytes(1, &mut command)
            });
        }
    }
}

/// Turns over a bit of a slice from a place on, where the answer is good.
fn turned(call: &Passing<'_>, slice: usize, place: usize) -> u64 {
    let answer = call.honest();
    if answer == 0 && call.lent[slice].length > place {
        call.turn(slice, place as isize);
    }
    answer
}

#[test]
fn a_wrong_byte_far_on() {
    let transfers = executes::large::every_length as Part;
    let places: [(Part, Function, usize, &[u32]); 10] = [
        (transfers, Function::Execute, 0, &[12, 16, 19]),
        (transfers, Function::Execute, 2, &[12, 16, 19]),
        (
            executes::large::more_than_24_bits,
            Function::Execute,
            2,
            &[24],
        ),
        (executes::large::most, Function::Execute, 0, &[27]),
        (stripes::large, Function::Parity, 1, &[13, 14, 16, 17, 19]),
        (stripes::large, Function::Rebuild, 1, &[13, 14, 16, 17, 19]),
        (stripes::large, Function::Correct, 2, &[13, 14, 16, 17, 19]),
        (stripes::most, Function::Rebuild, 1, &[20, 23]),
        (formats::large, Function::Fill, 0, &[14, 16, 20, 24, 27]),
        (guards::large, Function::Guards, 1, &[12, 16, 17]),
    ];
    for (part, function, slice, bits) in places {
        for bits in bits {
            found_by(part, function, |call| turned(call, slice, 1 << bits));
        }
    }
}

#[test]
fn a_wrong_byte_of_great_blocks() {
    for e in 0..4 {
        for p in 2..4 {
            found_by(formats::large, Function::Fill, |call| {
                let great = call.numbers[..3] == [p, 4_096, e] && call.numbers[4] > 200;
                if great {
                    turned(call, 0, 1_000_000)
                } else {
                    call.honest()
                }
            });
        }
    }
}

/// A slice that is taken for good when its length is cut to so many bits.
fn taken_when_cut(call: &Passing<'_>, slice: usize, bits: u32) -> u64 {
    let answer = call.honest();
    let Lent { pointer, length } = call.lent[slice];
    let refused = match call.function {
        Function::List => call.bytes(1).starts_with(b"refused"),
        _ => matches!(answer, 2 | 3 | 4 | 11),
    };
    if refused && length >> bits > 0 {
        let length = cut(length, bits);
        return call.honest_with(slice, Lent { pointer, length });
    }
    answer
}

#[test]
fn a_length_right_when_it_is_cut() {
    let slices: [(Part, Function, usize); 15] = [
        (executes::large::every_cut, Function::Execute, 0),
        (executes::large::every_cut, Function::Execute, 1),
        (executes::large::every_cut, Function::Execute, 2),
        (formats::large, Function::Fill, 0),
        (scrubs::every_cut, Function::Scrub, 0),
        (stripes::large, Function::Parity, 0),
        (stripes::large, Function::Parity, 1),
        (stripes::large, Function::Rebuild, 0),
        (stripes::large, Function::Rebuild, 1),
        (stripes::large, Function::Correct, 0),
        (stripes::large, Function::Correct, 1),
        (stripes::large, Function::Correct, 2),
        (listings::large, Function::List, 0),
        (guards::large, Function::Guards, 0),
        (guards::large, Function::Guards, 1),
    ];
    for (part, function, slice) in slices {
        for bits in [8, 16, 24, 27, 32] {
            found_by(part, function, |call| taken_when_cut(call, slice, bits));
        }
    }
}

#[test]
fn totals_of_a_listing_cut() {
    for total in [1, 3, 5] {
        for bits in [5, 8, 10, 12] {
            found_by(listings::large, Function::List, |call| {
                let text = reference::listing(call.bytes(0));
                let text = String::from_utf8(text).expect("letters");
                let lines = text.trim_end().rsplit_once('\n');
                let Some((lines, last)) = lines.filter(|_| text.len() > 2_000) else {
                    return call.honest();
                };
                let mut words: Vec<String> = last.split(' ').map(String::from).collect();
                let number: usize = words[total].parse().expect("a number");
                words[total] = cut(number, bits).to_string();
                print(call, format!("{lines}\n{}\n", words.join(" ")).as_bytes())
            });
        }
    }
}

#[test]
fn a_guard_of_a_cut_length() {
    for function in [Function::Guard, Function::GuardByDivision] {
        for bits in [16, 17, 20, 22, 24] {
            found_by(guards::large, function, |call| {
                let Lent { pointer, length } = call.lent[0];
                let length = if length > 100_003 {
                    cut(length, bits)
                } else {
                    length
                };
                call.honest_with(0, Lent { pointer, length })
            });
        }
    }
}
