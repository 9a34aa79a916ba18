//! Which fields are checked, expected tags, the escape, and inserted tags.

use reference::{Description, guard};

use crate::support::*;

/// Where the fields of the interval at a place begin.
pub fn fields_at(desc: &Description, place: usize) -> usize {
    let data = (desc.b >> desc.e) as usize;
    place * (data + 8) + data
}

/// The description of the tests here, of a type, with two intervals a block
/// where the type allows them.
pub fn shape(p: u64, ato: u64) -> Description {
    describe(p, 16, if p < 2 { 0 } else { 1 }, 100, 4, ato)
}

/// A segment of right tags for a command at 101, expected first tag 5.
pub fn right(desc: &Description) -> Vec<u8> {
    let first = if desc.p == 1 {
        100
    } else {
        5u32.wrapping_sub(2)
    };
    build(desc, |block, inside| {
        let place = (block << desc.e) + inside;
        (0x1234, first.wrapping_add(place as u32))
    })
}

/// A command at 101 for the tests here: of 32 bytes for type 2.
pub fn at_101(desc: &Description, operation: usize, code: u8, length: u32) -> Cdb {
    if desc.p == 2 {
        long(operation, code, 101, length, 5).tags(0x1234, 0xFFFF)
    } else {
        cdb(operation, 16, code, 101, length)
    }
}

/// The outcome when the transfer's blocks are those of `segment`: stored ones
/// for READ and VERIFY, incoming ones for WRITE.
fn judged(desc: &Description, segment: &[u8], command: &Cdb) -> reference::Outcome {
    let stored = desc.stored_block().unwrap() as usize;
    let start = (command.address - desc.w) as usize * stored;
    let end = start + command.length as usize * stored;
    if command.operation == WRITE {
        let other = vec![0x77; segment.len()];
        let (got, after, _) = run(desc, &other, &command.bytes(), &segment[start..end]);
        if got.answer == 0 {
            let mut wanted = other;
            wanted[start..end].copy_from_slice(&segment[start..end]);
            assert_eq!(after, wanted);
        }
        got
    } else {
        let got = answer(desc, segment, command);
        // Other blocks have no part in it.
        let mut other = vec![0x77; segment.len()];
        other[start..end].copy_from_slice(&segment[start..end]);
        assert_eq!(answer(desc, &other, command), got);
        got
    }
}

#[test]
fn each_code_at_each_type() {
    for p in 1..=3 {
        for ato in [0, 1] {
            let desc = shape(p, ato);
            let segment = right(&desc);
            for operation in OPERATIONS {
                for code in 0..6 {
                    if operation == WRITE && code == 0 {
                        continue;
                    }
                    let command = at_101(&desc, operation, code, 3);
                    assert_eq!(judged(&desc, &segment, &command), plain(0));
                    // One wrong byte in each field of each interval of the
                    // transfer and of the block before it.
                    let intervals = 1 << desc.e;
                    for place in 0..4 * intervals {
                        for at in 0..8 {
                            let mut wrong = segment.clone();
                            wrong[fields_at(&desc, place) + at] ^= 0x10;
                            let guards = matches!(code, 0 | 1 | 4 | 5);
                            let tags = matches!(code, 0 | 1 | 2 | 5);
                            let failed = match at {
                                0..2 if guards => 8,
                                2..4 if tags && p == 2 && ato == 1 => 9,
                                4..8 if tags && p != 3 => 10,
                                _ => 0,
                            };
                            let wanted = if failed == 0 || place < intervals {
                                plain(0)
                            } else {
                                let address = 100 + (place / intervals) as u64;
                                outcome(failed, address, (place - intervals) as u64)
                            };
                            assert_eq!(judged(&desc, &wrong, &command), wanted);
                        }
                    }
                }
            }
        }
    }
}

#[test]
fn one_wrong_data_bit_is_a_wrong_guard() {
    for p in 1..=3 {
        let desc = shape(p, 0);
        let segment = right(&desc);
        let stored = desc.stored_block().unwrap() as usize;
        for operation in OPERATIONS {
            let command = at_101(&desc, operation, 0b100, 1);
            let data = (desc.b >> desc.e) as usize;
            for at in 0..stored {
                let (place, inside) = (at / (data + 8), at % (data + 8));
                if inside >= data {
                    continue;
                }
                for bit in 0..8 {
                    let mut wrong = segment.clone();
                    wrong[stored + at] ^= 1 << bit;
                    assert_eq!(
                        judged(&desc, &wrong, &command),
                        outcome(8, 101, place as u64)
                    );
                }
            }
        }
    }
}

#[test]
fn in_one_interval_guard_application_reference() {
    let desc = shape(2, 1);
    for operation in OPERATIONS {
        let command = at_101(&desc, operation, 0b001, 2);
        let mut segment = right(&desc);
        // A wrong reference in a later interval never comes first.
        segment[fields_at(&desc, 5) + 7] ^= 1;
        assert_eq!(judged(&desc, &segment, &command), outcome(10, 102, 3));
        let at = fields_at(&desc, 3);
        segment[at + 7] ^= 1;
        assert_eq!(judged(&desc, &segment, &command), outcome(10, 101, 1));
        segment[at + 3] ^= 1;
        assert_eq!(judged(&desc, &segment, &command), outcome(9, 101, 1));
        segment[at + 1] ^= 1;
        assert_eq!(judged(&desc, &segment, &command), outcome(8, 101, 1));
    }
}

#[test]
fn a_write_of_type_2_needs_32_bytes_for_its_fields() {
    let desc = shape(2, 1);
    let mut segment = right(&desc);
    // With other commands neither tag is known: only the guard is checked.
    for place in 0..8 {
        segment[fields_at(&desc, place) + 7] ^= 0x55;
    }
    for size in [10, 12, 16] {
        for operation in [READ, VERIFY] {
            let command = cdb(operation, size, 0, 100, 4);
            assert_eq!(judged(&desc, &segment, &command), plain(0));
            let mut wrong = segment.clone();
            wrong[fields_at(&desc, 7)] ^= 1;
            assert_eq!(judged(&desc, &wrong, &command), outcome(8, 103, 7));
        }
    }
}

#[test]
fn the_mask_chooses_bits() {
    let desc = shape(2, 1);
    let segment = right(&desc);
    for operation in OPERATIONS {
        for bit in 0..16 {
            let command = at_101(&desc, operation, 0b010, 1);
            let off = command.tags(0x1234 ^ 1 << bit, !(1 << bit));
            assert_eq!(judged(&desc, &segment, &off), plain(0));
            let on = command.tags(0x1234 ^ 1 << bit, 1 << bit);
            assert_eq!(judged(&desc, &segment, &on), outcome(9, 101, 0));
        }
        let none = at_101(&desc, operation, 0b010, 1).tags(0xEDCB, 0);
        assert_eq!(judged(&desc, &segment, &none), plain(0));
    }
    // ATO 0: not known, whatever the mask.
    let desc = shape(2, 0);
    let command = at_101(&desc, READ, 0b001, 1).tags(0xEDCB, 0xFFFF);
    assert_eq!(judged(&desc, &right(&desc), &command), plain(0));
}

#[test]
fn expected_references_wrap() {
    // Type 1, from the address.
    for w in [0xFFFF_FFFE, 0x7_FFFF_FFFE] {
        let desc = describe(1, 8, 0, w, 4, 0);
        let segment = build(&desc, |block, _| {
            (0, 0xFFFF_FFFEu32.wrapping_add(block as u32))
        });
        for operation in OPERATIONS {
            let command = cdb(operation, 16, 0b001, w, 4);
            assert_eq!(judged(&desc, &segment, &command), plain(0));
            let mut wrong = segment.clone();
            wrong[fields_at(&desc, 2) + 7] = 1;
            assert_eq!(judged(&desc, &wrong, &command), outcome(10, w + 2, 2));
        }
    }
    // Type 2, from the command, in the middle of a block.
    let desc = describe(2, 8, 3, 50, 2, 0);
    let first = 0xFFFF_FFFBu32;
    let segment = build(&desc, |block, inside| {
        (0, first.wrapping_add((block * 8 + inside) as u32))
    });
    for operation in OPERATIONS {
        let command = long(operation, 0b101, 50, 2, first);
        assert_eq!(judged(&desc, &segment, &command), plain(0));
        let other = long(operation, 0b101, 50, 2, first + 1);
        assert_eq!(judged(&desc, &segment, &other), outcome(10, 50, 0));
    }
}

#[test]
fn the_escape_on_stored_blocks_only() {
    for p in 1..=3 {
        let desc = shape(p, 1);
        let intervals = 1usize << desc.e;
        for operation in OPERATIONS {
            for code in [0, 1, 2, 4, 5] {
                if operation == WRITE && code == 0 {
                    continue;
                }
                let command = at_101(&desc, operation, code, 3);
                for bearer in 0..intervals {
                    // The second block of the transfer is wrong throughout and
                    // one of its intervals bears the escape.
                    let mut segment = right(&desc);
                    let second = 2 * intervals;
                    for place in second..second + intervals {
                        let at = fields_at(&desc, place);
                        segment[at..at + 8].copy_from_slice(&[0xA5; 8]);
                    }
                    let at = fields_at(&desc, second + bearer);
                    segment[at + 2..at + 4].fill(0xFF);
                    if p == 3 {
                        // One tag is not enough for type 3.
                        let got = judged(&desc, &segment, &command);
                        if code != 2 {
                            assert_eq!(got, outcome(8, 102, intervals as u64));
                        }
                        segment[at + 4..at + 8].fill(0xFF);
                    }
                    let got = judged(&desc, &segment, &command);
                    if operation == WRITE {
                        let checked = match code {
                            2 if p == 3 => 0,
                            2 if p == 2 => 9,
                            2 => 10,
                            _ => 8,
                        };
                        let wanted = match checked {
                            0 => plain(0),
                            _ => outcome(checked, 102, intervals as u64),
                        };
                        assert_eq!(got, wanted);
                        continue;
                    }
                    // Skipped, and the tags of the third block still count the
                    // intervals of the second.
                    assert_eq!(got, plain(0));
                    if p != 3 && matches!(code, 0 | 1 | 2 | 5) {
                        segment[fields_at(&desc, second + intervals) + 7] ^= 1;
                        let got = judged(&desc, &segment, &command);
                        assert_eq!(got, outcome(10, 103, 2 * intervals as u64));
                    }
                }
            }
        }
    }
}

#[test]
fn inserted_fields() {
    for p in 1..=3 {
        for ato in [0, 1] {
            for e in 0..=if p == 1 { 0 } else { 3 } {
                for w in [3, 0x1FFF_FFFE, 0xFFFF_FFFE, (1 << 63) - 4] {
                    let desc = describe(p, 16, e, w, 4, ato);
                    for size in SIZES {
                        let address = w + 1;
                        let short = size < 16 && address > 0xFFFF_FFFF;
                        if size == 32 && p != 2 || short {
                            continue;
                        }
                        inserted(&desc, size, address);
                    }
                }
            }
        }
    }
}

/// Writes two blocks at an address and looks at every stored byte.
fn inserted(desc: &Description, size: usize, address: u64) {
    let first = 0xFFFF_FFFDu32;
    let command = Cdb {
        first,
        ..cdb(WRITE, size, 0, address, 2)
    }
    .tags(0xBEEF, 0x0F0F);
    let intervals = 1u64 << desc.e;
    let data = (desc.b / intervals) as usize;
    let buffer = Numbers(address).bytes(2 * 16);
    let length = desc.segment_length().unwrap() as usize;
    let before = vec![0x77; length];
    let (got, after, _) = run(desc, &before, &command.bytes(), &buffer);
    assert_eq!(got, plain(0));

    let mut wanted = Vec::new();
    for (place, piece) in buffer.chunks(data).enumerate() {
        let place = place as u64;
        let block = address + place / intervals;
        let application = match (desc.ato, size) {
            (0, _) => 0x0000,
            (_, 32) => 0xBEEF,
            _ => 0xFFFF,
        };
        let reference = match (desc.p, size) {
            (1, _) => block as u32,
            (2, 32) => first.wrapping_add(place as u32),
            (2, _) => {
                let whole = u128::from(block) * u128::from(intervals);
                (whole + u128::from(place % intervals)) as u32
            }
            _ => 0,
        };
        wanted.extend(piece);
        wanted.extend(guard(piece).to_be_bytes());
        wanted.extend(u16::to_be_bytes(application));
        wanted.extend(u32::to_be_bytes(reference));
    }
    let stored = desc.stored_block().unwrap() as usize;
    assert_eq!(after[stored..3 * stored], wanted);
    assert!(after[..stored].iter().all(|&byte| byte == 0x77));
    assert!(after[3 * stored..].iter().all(|&byte| byte == 0x77));

    // What was inserted is read back without a fault, data and all.
    let read = Cdb {
        operation: READ,
        ..command
    };
    let (got, _, moved) = run(desc, &after, &read.bytes(), &[0; 32]);
    assert_eq!(got, plain(0));
    assert_eq!(moved, buffer);
}

#[test]
fn an_inserting_write_does_not_judge_what_it_overwrites() {
    let desc = shape(1, 0);
    let wrong = vec![0x77; desc.segment_length().unwrap() as usize];
    let command = cdb(WRITE, 10, 0, 100, 4);
    assert_eq!(answer(&desc, &wrong, &command), plain(0));
    assert_eq!(
        answer(&desc, &wrong, &cdb(READ, 10, 0, 100, 4)),
        outcome(8, 100, 0)
    );
}

#[test]
fn type_0_checks_nothing() {
    let desc = describe(0, 16, 0, 100, 4, 0);
    let segment = Numbers(4).bytes(64);
    for size in [10, 12, 16] {
        let (got, _, moved) = run(
            &desc,
            &segment,
            &cdb(READ, size, 0, 101, 2).bytes(),
            &[0; 32],
        );
        assert_eq!(got, plain(0));
        assert_eq!(moved, segment[16..48]);
        assert_eq!(
            answer(&desc, &segment, &cdb(VERIFY, size, 0, 100, 4)),
            plain(0)
        );
        let (got, after, _) = run(
            &desc,
            &segment,
            &cdb(WRITE, size, 0, 101, 2).bytes(),
            &[0xC3; 32],
        );
        assert_eq!(got, plain(0));
        let wanted = [&segment[..16], &[0xC3; 32], &segment[48..]].concat();
        assert_eq!(after, wanted);
    }
}
