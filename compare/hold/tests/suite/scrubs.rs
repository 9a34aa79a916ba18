//! Faults of a scrub. The systematic calls alone must find each, and the series those
//! that a library's own numbers show and those that only the reference tells.

use hold::call::{Call, Function, Left};
use hold::compare::{Difference, Sides};
use hold::fence::Way;
use hold::runs::{Run, side_by_side};
use hold::scrubs;
use hold::trial::{Part, Trial};
use reference::{Description, Scrubbed, guard};

use crate::classes::{found_by, stored};
use crate::library::{Honest, Passing, Planted};

/// A stored block that a scrub judges.
struct Block<'a> {
    p: u64,
    address: u64,
    bytes: &'a [u8],
    /// The data bytes of an interval.
    data: usize,
}

/// An interval of a block, and its three fields.
struct Interval<'a> {
    data: &'a [u8],
    guard: u16,
    application: u16,
    reference: u32,
}

impl Block<'_> {
    /// None in type 0.
    fn intervals(&self) -> impl Iterator<Item = Interval<'_>> {
        let bytes = if self.p == 0 { &[] } else { self.bytes };
        bytes.chunks_exact(self.data + 8).map(|interval| {
            let (data, fields) = interval.split_at(self.data);
            let high = |at: usize| u16::from_be_bytes([fields[at], fields[at + 1]]);
            Interval {
                data,
                guard: high(0),
                application: high(2),
                reference: u32::from(high(4)) << 16 | u32::from(high(6)),
            }
        })
    }

    fn has_escape(&self, interval: &Interval<'_>) -> bool {
        interval.application == 0xFFFF && (self.p != 3 || interval.reference == 0xFFFF_FFFF)
    }

    fn escaped(&self) -> bool {
        self.intervals().any(|interval| self.has_escape(&interval))
    }

    fn guard_is_wrong(&self, interval: &Interval<'_>) -> bool {
        interval.guard != guard(interval.data)
    }

    fn reference_is_wrong(&self, interval: &Interval<'_>) -> bool {
        self.p == 1 && interval.reference != self.address as u32
    }

    fn is_wrong(&self, interval: &Interval<'_>) -> bool {
        self.guard_is_wrong(interval) || self.reference_is_wrong(interval)
    }

    /// How many intervals are wrong.
    fn wrong(&self) -> usize {
        if self.escaped() {
            return 0;
        }
        self.intervals().filter(|one| self.is_wrong(one)).count()
    }
}

/// What a call's numbers describe.
fn described(call: &Passing<'_>) -> Description {
    let [p, b, e, w, n, ato, ..] = call.numbers[..] else {
        panic!("a description")
    };
    Description { p, b, e, w, n, ato }
}

/// The place that a scrub is given, and the number of blocks.
fn asked(call: &Passing<'_>) -> (u64, u64) {
    (call.numbers[6], call.numbers[7])
}

/// What comes of a good call if each block's faults are counted like this.
fn counted(call: &Passing<'_>, right: Scrubbed, faults: impl Fn(&Block<'_>) -> usize) -> Scrubbed {
    let mut out = Scrubbed {
        faults: 0,
        first_fault: 0,
        ..right
    };
    if right.answer != 0 {
        return out;
    }
    let desc = described(call);
    let each = stored(call);
    let (place, _) = asked(call);
    let bytes = &call.bytes(0)[place as usize * each..right.next as usize * each];
    for (bytes, address) in bytes.chunks_exact(each).zip(desc.w + place..) {
        let block = Block {
            p: desc.p,
            address,
            bytes,
            data: (desc.b >> desc.e) as usize,
        };
        let faults = faults(&block) as u64;
        if out.faults == 0 && faults > 0 {
            out.first_fault = address;
        }
        out.faults += faults;
    }
    out
}

/// A library that hands back other numbers of a scrub.
fn through(call: &Passing<'_>, fault: Fault<'_>) -> u64 {
    let answer = call.honest();
    if call.function != Function::Scrub {
        return answer;
    }
    // SAFETY, here and below: the places are lent.
    let numbers = [0, 1, 2, 3].map(|number| unsafe { *call.places[number] });
    let [next, judged, faults, first_fault] = numbers;
    let right = Scrubbed {
        answer,
        next,
        judged,
        faults,
        first_fault,
    };
    let other = fault(call, right);
    let numbers = [other.next, other.judged, other.faults, other.first_fault];
    for (&place, number) in call.places.iter().zip(numbers) {
        unsafe { *place = number };
    }
    other.answer
}

/// What a library with a fault hands back, of the call and of what is right.
type Fault<'a> = &'a dyn Fn(&Passing<'_>, Scrubbed) -> Scrubbed;

fn found_in(part: Part, fault: Fault<'_>) -> Box<Difference> {
    found_by(part, Function::Scrub, |call| through(call, fault))
}

/// The systematic calls find it, and so do random ones.
fn found(fault: Fault<'_>) -> Box<Difference> {
    let library = Planted(|call: Passing<'_>| through(&call, fault));
    let held = Trial::new(&library).random(1, 60_000);
    held.expect_err("random calls do not find the fault");
    found_in(scrubs::each, fault)
}

/// The same where only good calls have the fault.
fn found_if_good(fault: Fault<'_>) -> Box<Difference> {
    found(&|call, right| match right.answer {
        0 => fault(call, right),
        _ => right,
    })
}

/// What the reference does with other numbers.
fn asked_for(call: &Passing<'_>, place: u64, blocks: u64) -> Scrubbed {
    reference::scrub(&described(call), call.bytes(0), place, blocks)
}

#[test]
fn the_tests_own_judgement_is_the_reference_s() {
    let library = Planted(|call: Passing<'_>| {
        through(&call, &|call, right| {
            counted(call, right, |block| block.wrong().min(1))
        })
    });
    let mut trial = Trial::new(&library);
    for part in [scrubs::each as Part, scrubs::pairs, scrubs::every_address] {
        assert!(part(&mut |call| trial.put(call)).is_ok());
    }
}

#[test]
fn no_end_of_the_segment() {
    found_if_good(&|call, right| {
        let (place, blocks) = asked(call);
        let next = place.wrapping_add(blocks);
        Scrubbed { next, ..right }
    });
    found_if_good(&|call, right| {
        let (_, judged) = asked(call);
        Scrubbed { judged, ..right }
    });
}

#[test]
fn a_sum_of_place_and_blocks_that_wraps() {
    found_if_good(&|call, right| {
        let (place, blocks) = asked(call);
        match place.checked_add(blocks) {
            Some(_) => right,
            None => asked_for(
                call,
                place,
                place.wrapping_add(blocks).saturating_sub(place),
            ),
        }
    });
    // Such a sum refused.
    found_if_good(&|call, right| {
        let (place, blocks) = asked(call);
        let answer = if place.checked_add(blocks).is_some() {
            0
        } else {
            7
        };
        Scrubbed { answer, ..right }
    });
    // A place that is out of range comes into it again.
    found(&|call, right| {
        let (place, blocks) = asked(call);
        match right.answer {
            7 if place.wrapping_add(blocks) <= described(call).n => Scrubbed { answer: 0, ..right },
            _ => right,
        }
    });
}

#[test]
fn one_block_too_few_or_too_many() {
    found_if_good(&|call, right| asked_for(call, asked(call).0, right.judged.saturating_sub(1)));
    found_if_good(&|call, right| {
        let all = asked_for(call, asked(call).0, right.judged + 1);
        Scrubbed {
            next: right.next,
            judged: right.judged,
            ..all
        }
    });
    // None where none is asked for.
    for instead in [1, u64::MAX] {
        found_if_good(&|call, right| match asked(call) {
            (place, 0) => asked_for(call, place, instead),
            _ => right,
        });
    }
}

#[test]
fn the_first_block_of_a_call_passed_over() {
    found_if_good(&|call, right| {
        let (place, _) = asked(call);
        counted(call, right, |block| {
            let first = block.address == described(call).w + place;
            if first && place > 0 {
                0
            } else {
                block.wrong().min(1)
            }
        })
    });
}

#[test]
fn numbers_of_the_whole_in_place_of_the_call_s() {
    // The blocks judged so far, the faults so far, the first fault of all.
    found_if_good(&|_, right| Scrubbed {
        judged: right.next,
        ..right
    });
    found_if_good(&|call, right| Scrubbed {
        faults: asked_for(call, 0, right.next).faults,
        ..right
    });
    found_if_good(&|call, right| Scrubbed {
        first_fault: asked_for(call, 0, right.next).first_fault,
        ..right
    });
}

#[test]
fn another_fault_named() {
    // The last one.
    found_if_good(&|call, right| {
        let (place, _) = asked(call);
        let faulty = (place..right.next).rfind(|&at| asked_for(call, at, 1).faults > 0);
        let first_fault = faulty.map_or(0, |at| described(call).w + at);
        Scrubbed {
            first_fault,
            ..right
        }
    });
    // Its place, from the first block or from that of the call.
    found_if_good(&|call, right| Scrubbed {
        first_fault: right.first_fault.saturating_sub(described(call).w),
        ..right
    });
    found_if_good(&|call, right| Scrubbed {
        first_fault: right
            .first_fault
            .saturating_sub(described(call).w + asked(call).0),
        ..right
    });
    // An address where there is none: the first block's, the next one's.
    found_if_good(&|call, right| match right.faults {
        0 => Scrubbed {
            first_fault: described(call).w,
            ..right
        },
        _ => right,
    });
    found_if_good(&|call, right| match right.faults {
        0 => Scrubbed {
            first_fault: described(call).w + right.next,
            ..right
        },
        _ => right,
    });
}

#[test]
fn a_fault_at_address_0_taken_for_none() {
    found_in(scrubs::every_address, &|_, right| match right.first_fault {
        0 => Scrubbed { faults: 0, ..right },
        _ => right,
    });
    // Address 0 as if nothing had been found before: a later one is named.
    found_in(scrubs::each, &|call, right| match right {
        Scrubbed {
            faults: 2..,
            first_fault: 0,
            ..
        } => Scrubbed {
            first_fault: asked_for(call, 1, u64::MAX).first_fault,
            ..right
        },
        _ => right,
    });
}

#[test]
fn intervals_counted_for_blocks() {
    found_if_good(&|call, right| counted(call, right, |block| block.wrong()));
    // What is wrong with them.
    found_if_good(&|call, right| {
        counted(call, right, |block| {
            let wrong = |one: Interval<'_>| {
                let [guard, reference] =
                    [block.guard_is_wrong(&one), block.reference_is_wrong(&one)];
                usize::from(guard) + usize::from(reference)
            };
            let most = block.intervals().map(wrong).max().unwrap_or(0);
            if block.escaped() { 0 } else { most }
        })
    });
    // Skipped ones with them, or blocks that were right.
    found_if_good(&|call, right| {
        counted(call, right, |block| {
            usize::from(block.escaped() || block.wrong() > 0)
        })
    });
    found_if_good(&|_, right| Scrubbed {
        faults: right.judged - right.faults,
        ..right
    });
    // Only blocks that are judged counted as judged: those without an escape, those
    // that are not of type 0.
    found_if_good(&|call, right| {
        let escaped = counted(call, right, |block| usize::from(block.escaped())).faults;
        Scrubbed {
            judged: right.judged - escaped,
            ..right
        }
    });
    found_if_good(&|call, right| match call.numbers[0] {
        0 => Scrubbed { judged: 0, ..right },
        _ => right,
    });
}

#[test]
fn an_interval_of_a_block_left_out() {
    for p in 2..4 {
        for e in 1..4 {
            for left_out in 0..1 << e {
                found_in(scrubs::each, &|call, right| {
                    counted(call, right, |block| {
                        let of_these = call.numbers[0] == p && call.numbers[2] == e;
                        if block.escaped() || !of_these {
                            return block.wrong().min(1);
                        }
                        let intervals = block.intervals().enumerate();
                        let judged = intervals.filter(|(number, _)| *number != left_out);
                        usize::from(judged.into_iter().any(|(_, one)| block.is_wrong(&one)))
                    })
                });
            }
        }
    }
}

#[test]
fn another_rule_of_the_escape() {
    for p in 1..4 {
        // None at all.
        found_if_good(&|call, right| {
            counted(call, right, |block| {
                let wrong = block.intervals().any(|one| block.is_wrong(&one));
                let ignored = block.p == p && wrong;
                usize::from(ignored || block.wrong() > 0)
            })
        });
        // The first interval's alone, the last one's alone.
        if p > 1 {
            for last in [false, true] {
                found_if_good(&|call, right| {
                    counted(call, right, |block| {
                        let marked = if last {
                            block.intervals().last()
                        } else {
                            block.intervals().next()
                        };
                        let escaped = marked.is_some_and(|one| block.has_escape(&one));
                        let wrong = block.intervals().any(|one| block.is_wrong(&one));
                        let by_rule = if block.p == p {
                            escaped
                        } else {
                            block.escaped()
                        };
                        usize::from(wrong && !by_rule)
                    })
                });
            }
        }
    }
    // The interval's own.
    found_if_good(&|call, right| {
        counted(call, right, |block| {
            let mut intervals = block.intervals();
            usize::from(intervals.any(|one| block.is_wrong(&one) && !block.has_escape(&one)))
        })
    });
    // That of type 1 in type 3, and the other way round.
    for (p, like) in [(3, 1), (1, 3), (2, 3)] {
        found_if_good(&|call, right| {
            counted(call, right, |block| {
                let rule = Block {
                    p: if block.p == p { like } else { block.p },
                    ..*block
                };
                let wrong = block.intervals().any(|one| block.is_wrong(&one));
                usize::from(wrong && !rule.escaped())
            })
        });
    }
}

#[test]
fn a_part_of_the_marks_taken_for_an_escape() {
    for (p, bits) in [(1, 16), (2, 16), (3, 48)] {
        for bit in 0..bits {
            found_in(scrubs::each, &|call, right| {
                counted(call, right, |block| {
                    let marked = |one: &Interval<'_>| {
                        let all = u64::from(one.application) << 32 | u64::from(one.reference);
                        let marks = if p == 3 { all } else { all >> 32 };
                        marks | 1 << bit == (1 << bits) - 1
                    };
                    if block.p == p && block.intervals().any(|one| marked(&one)) {
                        return 0;
                    }
                    block.wrong().min(1)
                })
            });
        }
    }
}

#[test]
fn a_field_judged_or_not() {
    // The guard alone, the reference tag alone.
    found_if_good(&|call, right| {
        counted(call, right, |block| {
            let wrong = block.intervals().any(|one| block.guard_is_wrong(&one));
            usize::from(wrong && !block.escaped())
        })
    });
    found_if_good(&|call, right| {
        counted(call, right, |block| {
            let wrong = block.intervals().any(|one| block.reference_is_wrong(&one));
            usize::from(wrong && !block.escaped())
        })
    });
    // The reference tag of types 2 and 3 too, as in type 1 or as it is inserted.
    for p in 2..4 {
        for intervals_count in [false, true] {
            found_if_good(&|call, right| {
                let e = call.numbers[2];
                counted(call, right, |block| {
                    let other = |(number, one): (usize, Interval<'_>)| {
                        let expected = if intervals_count {
                            (block.address << e).wrapping_add(number as u64)
                        } else {
                            block.address
                        };
                        one.reference != expected as u32
                    };
                    let also = block.p == p && block.intervals().enumerate().any(other);
                    usize::from(!block.escaped() && (also || block.wrong() > 0))
                })
            });
        }
    }
    // The application tag where ATO is 1, and type 0 as type 1.
    found_if_good(&|call, right| {
        counted(call, right, |block| {
            let mut intervals = block.intervals();
            let also = call.numbers[5] == 1 && intervals.any(|one| one.application >= 0x8000);
            usize::from(!block.escaped() && (also || block.wrong() > 0))
        })
    });
    found_if_good(&|call, right| match call.numbers[0] {
        0 if right.judged > 0 => Scrubbed {
            faults: right.judged,
            first_fault: described(call).w + asked(call).0,
            ..right
        },
        _ => right,
    });
}

#[test]
fn a_refusal_with_other_numbers() {
    for answer in [1, 2, 7] {
        let found = |other: Fault<'_>| {
            found(&|call, right| match right.answer {
                refused if refused == answer => other(call, right),
                _ => right,
            })
        };
        found(&|_, right| Scrubbed { next: 0, ..right });
        found(&|call, right| Scrubbed {
            next: described(call).n,
            ..right
        });
        found(&|_, right| Scrubbed { judged: 1, ..right });
        found(&|call, right| Scrubbed {
            judged: asked(call).1,
            ..right
        });
        found(&|_, right| Scrubbed { faults: 1, ..right });
        found(&|call, right| Scrubbed {
            first_fault: described(call).w,
            ..right
        });
    }
}

#[test]
fn another_end_of_the_places() {
    // N itself, and the last block's.
    for less in [0, 1] {
        found(&|call, right| {
            let (place, _) = asked(call);
            if right.answer == 0 && place + less == described(call).n {
                return Scrubbed {
                    answer: 7,
                    next: place,
                    judged: 0,
                    faults: 0,
                    first_fault: 0,
                };
            }
            right
        });
    }
    // One more is taken for the end; so is any.
    found(&|call, right| {
        let (place, _) = asked(call);
        let beyond = right.answer == 7 && place - 1 == described(call).n;
        let answer = if beyond { 0 } else { right.answer };
        Scrubbed { answer, ..right }
    });
    found(&|_, right| match right.answer {
        7 => Scrubbed { answer: 0, ..right },
        _ => right,
    });
    // A good call with nothing to do refused.
    found(&|call, right| match asked(call) {
        (_, 0) if right.answer == 0 => Scrubbed { answer: 7, ..right },
        _ => right,
    });
}

#[test]
fn refusals_in_another_order() {
    let wrong_length = |call: &Passing<'_>| !call.lent[0].length.is_multiple_of(8);
    let beyond = |call: &Passing<'_>| {
        let (place, n) = (call.numbers[6], call.numbers[4]);
        place > n
    };
    for (answered, early, also) in [
        (1, 2, &wrong_length as &dyn Fn(&Passing<'_>) -> bool),
        (1, 7, &beyond),
        (2, 7, &beyond),
        (1, 7, &|call| beyond(call) && wrong_length(call)),
        (1, 2, &|call| beyond(call) && wrong_length(call)),
    ] {
        let difference = found_in(scrubs::pairs, &|call, right| match right.answer {
            answer if answer == answered && also(call) => Scrubbed {
                answer: early,
                ..right
            },
            _ => right,
        });
        let returned = (difference.wanted.returned, difference.got.returned);
        assert_eq!(returned, (answered, early));
    }
}

#[test]
fn a_number_given_cut() {
    for place in 0..8 {
        for bits in [8, 16, 31, 32, 63] {
            // A block length and a count may have more bits than eight or sixteen.
            if bits < 31 && matches!(place, 1 | 3 | 4) {
                continue;
            }
            found_by(scrubs::each, Function::Scrub, |call| {
                let mut numbers = call.numbers.clone();
                numbers[place] &= (1 << bits) - 1;
                let cut = Passing { numbers, ..*call };
                cut.honest()
            });
        }
    }
}

#[test]
fn a_number_handed_back_cut() {
    for bits in [8, 10, 15, 16] {
        let low = (1 << bits) - 1;
        found_in(scrubs::every_count, &|_, right| Scrubbed {
            next: right.next & low,
            ..right
        });
        found_in(scrubs::every_count, &|_, right| Scrubbed {
            judged: right.judged & low,
            ..right
        });
        found_in(scrubs::every_count, &|_, right| Scrubbed {
            faults: right.faults & low,
            ..right
        });
    }
    // The last place has no more bits than sixteen.
    for bits in [8, 10, 15] {
        found_in(scrubs::every_count, &|call, right| {
            let w = described(call).w;
            let place = right.first_fault.saturating_sub(w) & ((1 << bits) - 1);
            let first_fault = if right.faults == 0 { 0 } else { w + place };
            Scrubbed {
                first_fault,
                ..right
            }
        });
    }
    for bits in [8, 16, 31, 32, 33, 48, 62] {
        found_in(scrubs::every_address, &|_, right| Scrubbed {
            first_fault: right.first_fault & ((1 << bits) - 1),
            ..right
        });
    }
}

#[test]
fn a_reference_tag_of_other_bits() {
    // Of two bytes; of the address cut to 31 bits; counted on from W's in more bits.
    let others: [fn(u64, u64) -> u64; 3] = [
        |address, _| address & 0xFFFF,
        |address, _| address & 0x7FFF_FFFF,
        |address, w| (w & 0xFFFF_FFFF) + (address - w),
    ];
    for other in others {
        found_in(scrubs::every_address, &|call, right| {
            let w = described(call).w;
            counted(call, right, |block| {
                let wrong = |one: Interval<'_>| {
                    let expected = other(block.address, w);
                    block.guard_is_wrong(&one)
                        || block.p == 1 && u64::from(one.reference) != expected
                };
                usize::from(!block.escaped() && block.intervals().any(wrong))
            })
        });
    }
}

/// Judges the blocks from an offset that is cut to so many bits.
fn offset_cut(call: &Passing<'_>, right: Scrubbed, bits: u32) -> Scrubbed {
    let (place, _) = asked(call);
    let from = place as usize * stored(call);
    let cut = from & ((1 << bits) - 1);
    if right.answer != 0 || cut == from {
        return right;
    }
    let desc = Description {
        n: right.judged,
        w: described(call).w + place,
        ..described(call)
    };
    let bytes = &call.bytes(0)[cut..][..right.judged as usize * stored(call)];
    let other = reference::scrub(&desc, bytes, 0, right.judged);
    Scrubbed {
        next: right.next,
        ..other
    }
}

#[test]
fn an_offset_cut() {
    for (part, bits) in [
        (scrubs::every_count as Part, 8),
        (scrubs::every_count, 16),
        (scrubs::more_than_24_bits, 24),
        (scrubs::most, 27),
        (scrubs::most, 28),
    ] {
        found_in(part, &|call, right| offset_cut(call, right, bits));
    }
}

#[test]
fn a_fault_of_great_blocks_passed_over() {
    for bits in [4, 9, 12] {
        found_in(scrubs::every_block_length, &|call, right| {
            if call.numbers[1] >> bits == 0 {
                return right;
            }
            Scrubbed {
                faults: 0,
                first_fault: 0,
                ..right
            }
        });
        found_in(scrubs::every_block_length, &|call, right| {
            counted(call, right, |block| {
                let great = call.numbers[1] >> bits > 0;
                let wrong = block.intervals().any(|one| block.is_wrong(&one));
                usize::from(wrong && (great || !block.escaped()))
            })
        });
    }
}

#[test]
fn a_place_for_a_number_left_as_it_was() {
    for number in 0..4 {
        for answer in [0, 1, 2, 7] {
            found_by(scrubs::each, Function::Scrub, |call| {
                // SAFETY: the places are lent.
                let before = unsafe { *call.places[number] };
                let answered = call.honest();
                if answered == answer {
                    unsafe { *call.places[number] = before };
                }
                answered
            });
        }
    }
}

#[test]
fn a_segment_that_is_written() {
    let difference = found_by(scrubs::each, Function::Scrub, |call| {
        let answer = call.honest();
        // SAFETY: the places are lent.
        if unsafe { *call.places[2] } > 0 {
            call.turn(0, 0);
        }
        answer
    });
    assert_ne!(difference.got.lent, difference.wanted.lent);
}

/// The difference that series find: so many over any segments, and those over one block
/// and over as many as there may be.
fn found_by_series_of(count: u64, fault: impl Fn(&Passing<'_>) -> u64) -> Box<Difference> {
    let library = Planted(|call: Passing<'_>| fault(&call));
    let held = Trial::new(&library).series(1, count);
    held.expect_err("series do not find the fault")
}

fn found_by_series(fault: impl Fn(&Passing<'_>) -> u64) -> Box<Difference> {
    found_by_series_of(2_000, fault)
}

/// A library that lists intervals in one state as in another.
fn listed_as(call: &Passing<'_>, state: &str, other: &str) -> u64 {
    let length = call.honest();
    if call.function != Function::List {
        return length;
    }
    let text = &call.bytes(1)[..length as usize];
    let text = str::from_utf8(text).expect("letters");
    let text = text.replace(&format!(" {state}\n"), &format!(" {other}\n"));
    for (place, byte) in text.bytes().enumerate() {
        call.write(1, place, byte);
    }
    text.len() as u64
}

fn parts_in_series(difference: &Difference) -> bool {
    matches!(difference.sides, Sides::OneCallAndSeries(_))
}

#[test]
fn an_honest_library_is_at_one_with_itself() {
    let mut trial = Trial::new(&Honest);
    assert!(trial.series(1, 2_000).is_ok());
    assert!(trial.tally.inputs() > 6_000);
    let amiss = trial.tally.amiss();
    for called in ["scrub was not called", "list was not called"] {
        assert!(!amiss.contains(&called.into()), "{called}");
    }
}

#[test]
fn a_series_that_parts_from_one_call() {
    let faults: [fn(&Passing<'_>, Scrubbed) -> Scrubbed; 7] = [
        // The first block of a call passed over.
        |call, right| {
            let first = described(call).w + asked(call).0;
            counted(call, right, |block| {
                usize::from(block.wrong() > 0 && (block.address != first || asked(call).0 == 0))
            })
        },
        // No end of the segment.
        |call, right| Scrubbed {
            next: asked(call).0.wrapping_add(asked(call).1),
            ..right
        },
        // No way on.
        |call, right| Scrubbed {
            next: asked(call).0,
            ..right
        },
        // The faults so far.
        |call, right| Scrubbed {
            faults: asked_for(call, 0, right.next).faults,
            ..right
        },
        // The last fault named.
        |call, right| {
            let places = asked(call).0..right.next;
            let mut faulty = places.filter(|&at| asked_for(call, at, 1).faults > 0);
            let last = faulty.next_back();
            Scrubbed {
                first_fault: last.map_or(0, |at| described(call).w + at),
                ..right
            }
        },
        // A fault named where there is none.
        |call, right| match right.faults {
            0 => Scrubbed {
                first_fault: described(call).w,
                ..right
            },
            _ => right,
        },
        // The end refused.
        |call, right| match asked(call).0 == described(call).n {
            true => Scrubbed { answer: 7, ..right },
            false => right,
        },
    ];
    for fault in faults {
        let difference = found_by_series(|call| through(call, &fault));
        assert!(parts_in_series(&difference), "{difference}");
    }
}

#[test]
fn a_scrub_that_parts_from_the_listing() {
    let faults: [fn(&Passing<'_>, Scrubbed) -> Scrubbed; 3] = [
        |call, right| counted(call, right, |block| block.wrong()),
        |call, right| {
            counted(call, right, |block| {
                usize::from(block.intervals().any(|one| block.is_wrong(&one)))
            })
        },
        |_, right| Scrubbed {
            first_fault: right.first_fault & 0xFFFF_FFFF,
            ..right
        },
    ];
    for fault in faults {
        let difference = found_by_series(|call| through(call, &fault));
        assert_eq!(difference.sides, Sides::ListingAndOneCall, "{difference}");
    }
    // Or a listing that parts from it.
    for state in ["guard", "ref"] {
        let difference = found_by_series(|call| listed_as(call, state, "ok"));
        assert_eq!(difference.sides, Sides::ListingAndOneCall, "{difference}");
    }
}

/// Whether a block counts as faulty.
type Whether = fn(&Block<'_>) -> bool;

#[test]
fn a_library_at_one_with_itself_that_parts_from_the_reference() {
    // No reference tag judged, and escaped blocks counted as faulty, by scrub and listing.
    let faults: [(&str, &str, Whether); 2] = [
        ("ref", "ok", |block| {
            let wrong = block.intervals().any(|one| block.guard_is_wrong(&one));
            wrong && !block.escaped()
        }),
        ("skipped", "guard", |block| {
            block.escaped() || block.wrong() > 0
        }),
    ];
    for (state, other, faulty) in faults {
        let difference = found_by_series(|call| match call.function {
            Function::List => listed_as(call, state, other),
            _ => through(call, &|call, right| {
                counted(call, right, |block| usize::from(faulty(block)))
            }),
        });
        assert_eq!(difference.sides, Sides::ReferenceAndLibrary, "{difference}");
    }
    // A segment that every scrub writes.
    let difference = found_by_series(|call| {
        let answer = call.honest();
        if call.function == Function::Scrub {
            call.turn(0, 0);
        }
        answer
    });
    assert_eq!(difference.sides, Sides::ReferenceAndLibrary, "{difference}");
}

#[test]
fn a_step_whose_fault_no_total_shows() {
    let faults: [fn(&Passing<'_>); 3] = [
        // A segment that is written.
        |call| call.turn(0, 0),
        // A number before the first place.
        // SAFETY, here and below: the places stand between fences of a number each.
        |call| unsafe { *call.places[0].sub(1) ^= 1 },
        // An address where no fault is found.
        |call| unsafe {
            if *call.places[2] == 0 {
                *call.places[3] = described(call).w + 1;
            }
        },
    ];
    for fault in faults {
        let difference = found_by_series(|call| {
            let answer = call.honest();
            if call.function == Function::Scrub && asked(call).0 > 0 && asked(call).1 == 1 {
                fault(call);
            }
            answer
        });
        assert_eq!(difference.sides, Sides::ReferenceAndLibrary, "{difference}");
        assert_eq!(difference.call.numbers[7], 1, "{difference}");
    }
}

/// The difference that series over one block and over as many as there may be find, if
/// only segments of so many have the fault.
fn found_by_series_over(n: u64, fault: Fault<'_>) -> Box<Difference> {
    let difference = found_by_series_of(0, |call| {
        through(call, &|call, right| match described(call).n {
            count if count == n => fault(call, right),
            _ => right,
        })
    });
    assert_eq!(difference.call.numbers[4], n);
    difference
}

#[test]
fn a_series_over_one_block() {
    // The block judged again at the end.
    let again = found_by_series_over(1, &|call, right| match asked(call) {
        (1, _) => Scrubbed { judged: 1, ..right },
        _ => right,
    });
    assert!(parts_in_series(&again), "{again}");
    // By a step of none already, and not again: the totals are the same.
    let of_none = found_by_series_over(1, &|call, right| match asked(call) {
        (place, 0) => asked_for(call, place, 1),
        _ => right,
    });
    assert_eq!(of_none.sides, Sides::ReferenceAndLibrary, "{of_none}");
}

#[test]
fn a_fault_in_the_second_half_of_the_most_blocks() {
    let half = 32_768;
    // The first block of a call passed over.
    let passed_over = found_by_series_over(2 * half, &|call, right| {
        let (place, _) = asked(call);
        let first = described(call).w + place;
        counted(call, right, |block| {
            let passed_over = place >= half && block.address == first;
            usize::from(block.wrong() > 0 && !passed_over)
        })
    });
    let Sides::OneCallAndSeries(steps) = &passed_over.sides else {
        panic!("{passed_over}")
    };
    assert!(steps.len() > 2, "{steps:?}");
    assert_eq!(steps.iter().sum::<u64>(), 2 * half);
    // No block judged, which no listing tells: no record holds so many.
    let not_judged = found_by_series_over(2 * half, &|call, right| {
        let from = described(call).w + half;
        counted(call, right, |block| {
            usize::from(block.wrong() > 0 && block.address < from)
        })
    });
    assert_eq!(not_judged.sides, Sides::ReferenceAndLibrary, "{not_judged}");
}

#[test]
fn a_run_of_series_ends_with_its_difference() {
    let library = Planted(|call: Passing<'_>| {
        through(&call, &|call, right| Scrubbed {
            next: asked(call).0,
            ..right
        })
    });
    let run = Run::Series {
        seed: 1,
        count: 2_000,
    };
    let parted = side_by_side(&library, &[run]).err().expect("the fault");
    assert_eq!(parted.run.to_string(), "series of seed 1");
    let shown = parted.difference.to_string();
    for line in [
        "function scrub\n",
        "a series of [",
        "one call:\n",
        "series:\n",
    ] {
        assert!(shown.contains(line), "{shown}");
    }
}

#[test]
fn bytes_that_part_are_shown_by_the_names_of_the_sides() {
    let sides = [
        (Sides::ReferenceAndLibrary, ["reference", "library  "]),
        (Sides::OneCallAndSeries(vec![1]), ["one call ", "series   "]),
        (Sides::ListingAndOneCall, ["listing  ", "one call "]),
    ];
    let left = |byte| Left {
        returned: 0,
        places: Vec::new(),
        lent: vec![vec![7, byte]],
        trespassed: Vec::new(),
    };
    let call = Call::new(Function::Guard, &[], [&[7, 8]]);
    for (sides, [wanted, got]) in sides {
        let difference = Difference::new(&call, Way::BeforePage, sides, left(8), left(9));
        let shown = difference.to_string();
        let lines = format!("  {wanted} 1 bytes 08\n  {got} 1 bytes 09\n");
        assert!(shown.contains(&lines), "{shown}");
    }
}
