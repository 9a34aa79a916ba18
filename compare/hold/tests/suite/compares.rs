//! Faults of a VERIFY that compares. The systematic calls alone must find each.

use hold::call::Function;
use hold::compare::Difference;
use hold::executes::{differences, large, order};
use hold::trial::{Part, Trial};
use hold::{executes, guards};
use reference::Outcome;

use crate::classes::{Words, found_by, stored};
use crate::library::{Passing, Planted};

/// The byte-check bits of a VERIFY, its code and the place of both.
fn protect(command: &[u8]) -> Option<(u8, u8, usize)> {
    let place = match command {
        [0x7F, ..] if command.get(9) == Some(&0x0A) => 10,
        [0x2F | 0xAF | 0x8F, ..] => 1,
        _ => return None,
    };
    let byte = command.get(place)?;
    Some((byte >> 1 & 3, byte >> 5, place))
}

/// A VERIFY that compares, of those that nothing refuses before their intervals.
struct Comparing<'a> {
    call: &'a Passing<'a>,
    code: u8,
    address: u64,
    /// The transfer's blocks.
    stored: &'a [u8],
    sent: &'a [u8],
    /// The bytes of a block as it is stored, and as it is sent.
    each: [usize; 2],
}

impl<'a> Comparing<'a> {
    fn of(call: &'a Passing<'a>, answer: u64) -> Option<Self> {
        let command = call.bytes(1);
        let (0b01, code, _) = protect(command)? else {
            return None;
        };
        let words = Words::of(command).filter(|_| matches!(answer, 0 | 8..=10 | 15))?;
        let whole = stored(call);
        let start = (words.address - call.numbers[3]) as usize * whole;
        let length = words.length as usize * whole;
        Some(Comparing {
            call,
            code,
            address: words.address,
            stored: &call.bytes(0)[start..start + length],
            sent: call.bytes(2),
            each: [
                whole,
                if code == 0 {
                    call.numbers[1] as usize
                } else {
                    whole
                },
            ],
        })
    }

    fn p(&self) -> u64 {
        self.call.numbers[0]
    }

    /// The data bytes of an interval, and all of it.
    fn interval(&self) -> (usize, usize) {
        let data = (self.call.numbers[1] >> self.call.numbers[2]) as usize;
        (data, if self.p() == 0 { data } else { data + 8 })
    }

    /// Each block as it is stored and as it is sent, with its address.
    fn blocks(&self) -> impl DoubleEndedIterator<Item = (u64, &[u8], &[u8])> {
        let count = self.stored.len() / self.each[0];
        (0..count).map(|number| {
            let [stored, sent] = self.each.map(|each| number * each..(number + 1) * each);
            let address = self.address + number as u64;
            (address, &self.stored[stored], &self.sent[sent])
        })
    }

    /// Each byte of a block that is compared, with its place in its interval: as it is
    /// stored and as it is sent.
    fn bytes(&self, stored: &[u8], sent: &[u8]) -> Vec<(usize, u8, u8)> {
        let (data, step) = self.interval();
        let taken = if self.code == 0 { data } else { step };
        let places = (0..stored.len()).filter(|at| at % step < taken);
        let stored = places.map(|at| (at % step, stored[at]));
        stored
            .zip(sent)
            .map(|((at, stored), &sent)| (at, stored, sent))
            .collect()
    }

    fn differ(&self, stored: &[u8], sent: &[u8]) -> bool {
        let bytes = self.bytes(stored, sent);
        bytes.iter().any(|(_, stored, sent)| stored != sent)
    }

    /// Whether a block with its fields has the marks of an escape.
    fn marked(&self, block: &[u8]) -> bool {
        let (data, step) = self.interval();
        step > data
            && block.chunks_exact(step).any(|interval| {
                let end = if self.p() == 3 { 8 } else { 4 };
                interval[data + 2..data + end]
                    .iter()
                    .all(|&byte| byte == 0xFF)
            })
    }

    /// What comes of another comparison after the checks.
    fn compared(&self, outcome: Outcome, differ: impl Fn(&[u8], &[u8]) -> bool) -> Outcome {
        if !matches!(outcome.answer, 0 | 15) {
            return outcome;
        }
        let first = self.blocks().find(|(_, stored, sent)| differ(stored, sent));
        first.map_or(0.into(), |(address, ..)| different(address))
    }

    /// What comes of the comparison where nothing is checked before it.
    fn unchecked(&self) -> Outcome {
        self.compared(0.into(), |stored, sent| self.differ(stored, sent))
    }

    /// What comes of a comparison that leaves some bytes out, by their number in the
    /// block and their place in the interval.
    fn without(&self, outcome: Outcome, left: impl Fn(usize, usize) -> bool) -> Outcome {
        self.compared(outcome, |stored, sent| {
            let bytes = self.bytes(stored, sent);
            bytes
                .iter()
                .enumerate()
                .any(|(number, &(at, stored, sent))| stored != sent && !left(number, at))
        })
    }
}

fn different(address: u64) -> Outcome {
    Outcome {
        answer: 15,
        address,
        place: 0,
    }
}

/// A library that gives another outcome to a VERIFY that compares.
fn through(call: &Passing<'_>, fault: impl Fn(&Comparing<'_>, Outcome) -> Outcome) -> u64 {
    let answer = call.honest();
    if call.function != Function::Execute {
        return answer;
    }
    let Some(comparing) = Comparing::of(call, answer) else {
        return answer;
    };
    // SAFETY, here and below: the places are lent.
    let [address, place] = [0, 1].map(|number| unsafe { *call.places[number] });
    let other = fault(
        &comparing,
        Outcome {
            answer,
            address,
            place,
        },
    );
    unsafe {
        *call.places[0] = other.address;
        *call.places[1] = other.place;
    }
    other.answer
}

fn found_in(part: Part, fault: impl Fn(&Comparing<'_>, Outcome) -> Outcome) -> Box<Difference> {
    found_by(part, Function::Execute, |call| through(call, &fault))
}

/// The differences find it, and so do random calls.
fn found(fault: impl Fn(&Comparing<'_>, Outcome) -> Outcome) -> Box<Difference> {
    let library = Planted(|call: Passing<'_>| through(&call, &fault));
    let held = Trial::new(&library).random(1, 60_000);
    held.expect_err("random calls do not find the fault");
    found_in(differences::each, fault)
}

/// The outcome, but good in the place of 15 where nothing is compared.
fn unless(left: bool, outcome: Outcome) -> Outcome {
    if left && is_15(&outcome) {
        0.into()
    } else {
        outcome
    }
}

fn is_15(outcome: &Outcome) -> bool {
    outcome.answer == 15
}

/// Whether a check failed.
fn is_checked(outcome: &Outcome) -> bool {
    matches!(outcome.answer, 8..=10)
}

#[test]
fn compared_before_all_is_judged() {
    // In whole, or block by block: then a difference of an earlier block comes first, or
    // also one of the same.
    let before: [fn(u64, u64) -> bool; 3] = [
        |_, _| true,
        |different, wrong| different < wrong,
        |different, wrong| different == wrong,
    ];
    for before in before {
        let difference = found(|comparing, outcome| {
            let early = comparing.unchecked();
            if is_checked(&outcome) && is_15(&early) && before(early.address, outcome.address) {
                early
            } else {
                outcome
            }
        });
        assert!(matches!(difference.wanted.returned, 8..=10));
    }
}

#[test]
fn compared_before_later_blocks_are_judged() {
    // So many blocks are judged and compared at a time.
    for bits in [8, 10, 15] {
        for with_fields in [false, true] {
            let difference = found_in(large::every_count, |comparing, outcome| {
                let early = comparing.unchecked();
                let [early_run, wrong_run] = [early.address, outcome.address]
                    .map(|address| address.wrapping_sub(comparing.address) >> bits);
                let here = (comparing.code != 0) == with_fields;
                let runs = is_15(&early) && early_run < wrong_run;
                if here && runs && is_checked(&outcome) {
                    early
                } else {
                    outcome
                }
            });
            assert!(matches!(difference.wanted.returned, 8..=10));
        }
    }
}

#[test]
fn intervals_not_judged() {
    for code in [0b000, 0b001, 0b010, 0b100, 0b101] {
        found_in(differences::each, |comparing, outcome| {
            if comparing.code == code && is_checked(&outcome) {
                comparing.unchecked()
            } else {
                outcome
            }
        });
    }
}

#[test]
fn compared_before_other_refusals() {
    for refused in [1, 2, 3, 4, 5, 6, 7, 8, 9, 10] {
        let difference = found_by(order::each, Function::Execute, |call| {
            let compares = protect(call.bytes(1)).is_some_and(|(bits, ..)| bits & 0b01 != 0);
            // The second block of the segment is the transfer's first.
            let firsts = call.bytes(0).get(stored(call)).zip(call.bytes(2).first());
            let differ = firsts.is_some_and(|(stored, sent)| stored != sent);
            match call.honest() {
                answer if answer == refused && compares && differ => 15,
                answer => answer,
            }
        });
        let returned = (difference.wanted.returned, difference.got.returned);
        assert_eq!(returned, (refused, 15));
    }
}

#[test]
fn stored_intervals_judged_with_fields_sent() {
    for (p, code) in [
        (1, 0b001),
        (1, 0b010),
        (1, 0b100),
        (1, 0b101),
        (2, 0b001),
        (3, 0b100),
    ] {
        found_in(differences::each, |comparing, outcome| {
            let call = comparing.call;
            if (comparing.p(), comparing.code) != (p, code) {
                return outcome;
            }
            // As if the byte-check bits were 00b and nothing were sent.
            let mut command = call.bytes(1).to_vec();
            let place = protect(&command).expect("a VERIFY").2;
            command[place] &= !0b110;
            let desc = description(call);
            let judged = reference::execute(&desc, &mut call.bytes(0).to_vec(), &command, &mut []);
            if is_checked(&judged) { judged } else { outcome }
        });
    }
}

fn description(call: &Passing<'_>) -> reference::Description {
    let [p, b, e, w, n, ato] = call.numbers[..] else {
        unreachable!()
    };
    reference::Description { p, b, e, w, n, ato }
}

#[test]
fn an_escape_of_what_is_sent() {
    for p in 1..4 {
        found_in(differences::every_escape, |comparing, outcome| {
            let mut blocks = comparing.blocks();
            let named = blocks.find(|(address, ..)| *address == outcome.address);
            let marked = named.is_some_and(|(_, _, sent)| comparing.marked(sent));
            let here = comparing.p() == p && comparing.code != 0;
            if here && marked && is_checked(&outcome) {
                comparing.unchecked()
            } else {
                outcome
            }
        });
    }
}

#[test]
fn escaped_blocks_not_compared() {
    found(|comparing, outcome| {
        comparing.compared(outcome, |stored, sent| {
            comparing.differ(stored, sent) && !comparing.marked(stored)
        })
    });
    for p in 1..4 {
        for code in 0..6 {
            found_in(differences::every_escape, |comparing, outcome| {
                if (comparing.p(), comparing.code) != (p, code) {
                    return outcome;
                }
                comparing.compared(outcome, |stored, sent| {
                    comparing.differ(stored, sent) && !comparing.marked(stored)
                })
            });
        }
    }
}

#[test]
fn another_block_named() {
    let other: [fn(&Comparing<'_>, u64) -> u64; 4] = [
        |_, address| address + 1,
        |_, address| address - 1,
        |comparing, _| comparing.address,
        |comparing, address| address - comparing.address,
    ];
    for other in other {
        let difference = found(|comparing, outcome| match outcome.answer {
            15 => different(other(comparing, outcome.address)),
            _ => outcome,
        });
        assert_eq!(difference.wanted.returned, 15);
        assert_eq!(difference.got.returned, 15);
    }
    // The last that differs.
    found_in(differences::each, |comparing, outcome| {
        let mut blocks = comparing.blocks().rev();
        let last = blocks.find(|(_, stored, sent)| comparing.differ(stored, sent));
        match last {
            Some((address, ..)) if is_15(&outcome) => different(address),
            _ => outcome,
        }
    });
}

#[test]
fn a_place_with_15() {
    found(|comparing, outcome| {
        let number = outcome.address.wrapping_sub(comparing.address);
        match outcome.answer {
            15 => Outcome {
                place: number << comparing.call.numbers[2],
                ..outcome
            },
            _ => outcome,
        }
    });
}

#[test]
fn fields_left_out() {
    found(|comparing, outcome| comparing.without(outcome, |_, at| at >= comparing.interval().0));
    for field in [0..2, 2..4, 4..8] {
        for code in 1..6 {
            found_in(differences::each, |comparing, outcome| {
                let data = comparing.interval().0;
                comparing.without(outcome, |_, at| {
                    comparing.code == code && at >= data && field.contains(&(at - data))
                })
            });
        }
    }
}

#[test]
fn bytes_left_out() {
    for with_fields in [false, true] {
        let left: [fn(&Comparing<'_>, usize, usize) -> bool; 6] = [
            |_, number, _| number == 0,
            // The last byte of a block, and of an interval's data.
            |comparing, number, _| number + 1 == comparing.each[1],
            |comparing, _, at| at + 1 == comparing.interval().0,
            |_, _, at| at == 0,
            // All but the first interval, and all but the last.
            |comparing, number, _| number >= comparing.each[1] >> comparing.call.numbers[2],
            |comparing, number, _| {
                let each = comparing.each[1];
                number < each - (each >> comparing.call.numbers[2])
            },
        ];
        for left in left {
            found_in(differences::each, |comparing, outcome| {
                comparing.without(outcome, |number, at| {
                    (comparing.code != 0) == with_fields && left(comparing, number, at)
                })
            });
        }
        for bit in 0..8 {
            found_in(differences::each, |comparing, outcome| {
                comparing.compared(outcome, |stored, sent| {
                    let here = (comparing.code != 0) == with_fields;
                    let mask = if here { !(1 << bit) } else { 0xFF };
                    let bytes = comparing.bytes(stored, sent);
                    bytes.iter().any(|(_, a, b)| (a ^ b) & mask != 0)
                })
            });
        }
    }
}

#[test]
fn blocks_left_out() {
    for left in 0..3 {
        found_in(differences::each, |comparing, outcome| {
            let mut blocks = comparing.blocks();
            let first = blocks.find(|(address, stored, sent)| {
                comparing.differ(stored, sent) && *address != comparing.address + left
            });
            match outcome.answer {
                15 => first.map_or(0.into(), |(address, ..)| different(address)),
                _ => outcome,
            }
        });
    }
}

#[test]
fn blocks_of_the_segment_compared_from_its_first() {
    found(|comparing, outcome| {
        let segment = &comparing.call.bytes(0)[..comparing.stored.len()];
        let other = Comparing {
            stored: segment,
            ..*comparing
        };
        other.compared(outcome, |stored, sent| other.differ(stored, sent))
    });
}

#[test]
fn a_kind_not_compared() {
    for p in 0..4 {
        for e in 0..if p < 2 { 1 } else { 4 } {
            found_in(differences::every_bit, |comparing, outcome| {
                let here = (comparing.p(), comparing.call.numbers[2]) == (p, e);
                unless(here, outcome)
            });
        }
    }
    for code in 0..6 {
        found_in(differences::every_bit, |comparing, outcome| {
            unless(comparing.code == code, outcome)
        });
    }
    for size in [10, 12, 16, 32] {
        found_in(order::each, |comparing, outcome| {
            unless(comparing.call.bytes(1).len() == size, outcome)
        });
    }
}

#[test]
fn a_transfer_of_no_blocks_refused() {
    for answer in [4, 15] {
        for code in 0..6 {
            found_in(differences::every_length, |comparing, outcome| {
                if comparing.sent.is_empty() && comparing.code == code {
                    answer.into()
                } else {
                    outcome
                }
            });
        }
    }
}

#[test]
fn other_byte_check_bits_accepted() {
    for bits in [0b10, 0b11] {
        // As if they were 00b, and 01b.
        for taken in [0b00, 0b01] {
            for size in [10, 12, 16, 32] {
                found_by(executes::each, Function::Execute, |call| {
                    let mut command = call.bytes(1).to_vec();
                    match protect(&command) {
                        Some((given, _, place)) if given == bits && command.len() == size => {
                            command[place] = command[place] & !0b110 | taken << 1;
                            call.honest_with_bytes(1, &mut command)
                        }
                        _ => call.honest(),
                    }
                });
            }
        }
    }
}

#[test]
fn byte_check_bits_of_other_commands_looked_at() {
    for operation in 0..2 {
        for bits in 1..4 {
            found_by(executes::each, Function::Execute, |call| {
                let command = call.bytes(1);
                let other = Words::of(command).is_some_and(|words| words.operation == operation);
                let place = if command.len() == 32 { 10 } else { 1 };
                let answer = call.honest();
                if answer == 0 && other && command[place] >> 1 & 3 == bits {
                    6
                } else {
                    answer
                }
            });
        }
    }
}

/// Whether a length is taken beside the right one: of T, the right one, the one that
/// another code would ask for, and the one given.
type Taken = fn(usize, usize, usize, usize) -> bool;

#[test]
fn a_buffer_of_another_length() {
    let taken: [Taken; 5] = [
        |_, _, other, given| given == other,
        |_, _, _, given| given == 0,
        |_, right, _, given| given > right,
        |_, right, _, given| given < right,
        |t, _, _, _| t == 0,
    ];
    for code in 0..6 {
        for taken in taken {
            found_by(differences::every_length, Function::Execute, |call| {
                let command = call.bytes(1);
                let compares =
                    protect(command).is_some_and(|(bits, own, _)| (bits, own) == (0b01, code));
                let answer = call.honest();
                let Some(words) = Words::of(command).filter(|_| compares && answer == 4) else {
                    return answer;
                };
                let t = words.length as usize;
                let mut lengths = [call.numbers[1] as usize, stored(call)].map(|each| t * each);
                if code != 0 {
                    lengths.reverse();
                }
                let [right, other] = lengths;
                if taken(t, right, other, call.lent[2].length) {
                    return 0;
                }
                answer
            });
        }
        // And the right one refused.
        found_in(differences::every_length, |comparing, outcome| {
            if comparing.code == code {
                4.into()
            } else {
                outcome
            }
        });
    }
}

#[test]
fn bytes_that_a_comparison_changes() {
    for slice in [0, 2] {
        for answered in [0, 8, 9, 10, 15] {
            found_in(differences::each, |comparing, outcome| {
                if outcome.answer == answered && comparing.call.lent[slice].length > 0 {
                    comparing.call.turn(slice, 0);
                }
                outcome
            });
        }
    }
}

#[test]
fn an_address_with_15_cut() {
    for bits in [8, 10, 15] {
        found_in(large::every_count, |comparing, outcome| {
            let first = comparing.address;
            match outcome.answer {
                15 => different(first + (outcome.address - first) % (1 << bits)),
                _ => outcome,
            }
        });
    }
    for bits in [8, 16, 31, 32, 33, 48, 62] {
        found_in(large::every_address, |_, outcome| match outcome.answer {
            15 => different(outcome.address % (1 << bits)),
            _ => outcome,
        });
    }
}

#[test]
fn a_difference_far_on_passed_over() {
    for with_fields in [false, true] {
        for (part, bits) in [
            (large::every_count as Part, 8),
            (large::every_count, 10),
            (large::every_count, 15),
            (large::every_length, 15),
        ] {
            // From a block on.
            found_in(part, |comparing, outcome| {
                let number = outcome.address.wrapping_sub(comparing.address);
                let here = (comparing.code != 0) == with_fields;
                unless(here && number >> bits > 0, outcome)
            });
        }
        // From a byte on.
        found_in(large::more_than_24_bits, |comparing, outcome| {
            let here = (comparing.code != 0) == with_fields;
            unless(here && comparing.sent.len() >> 24 > 0, outcome)
        });
        // In great blocks.
        for bits in [4, 9, 12] {
            found_in(large::every_block_length, |comparing, outcome| {
                let here = (comparing.code != 0) == with_fields;
                unless(here && comparing.call.numbers[1] >> bits > 0, outcome)
            });
        }
    }
}

#[test]
fn a_sense_without_15() {
    for other in [0x000E_1D01, 0x000B_1D00, 0] {
        found_by(
            guards::each,
            Function::Sense,
            |call| match call.numbers[..] {
                [15] => other,
                _ => call.honest(),
            },
        );
    }
}
