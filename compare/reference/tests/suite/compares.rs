//! VERIFY with byte-check bits 01b: what is checked, what is compared, and which
//! comes first.

use reference::{Description, Outcome};

use crate::fields::{at_101, fields_at, right, shape};
use crate::support::*;

/// A VERIFY at 101 that compares: of 32 bytes for type 2.
fn comparing(desc: &Description, code: u8, length: u32) -> Cdb {
    Cdb {
        byte_check: 0b01,
        ..at_101(desc, VERIFY, code, length)
    }
}

/// The codes that a type may have here.
fn codes(p: u64) -> std::ops::Range<u8> {
    if p == 0 { 0..1 } else { 0..6 }
}

fn compared(desc: &Description, segment: &[u8], command: &Cdb, buffer: &[u8]) -> Outcome {
    run(desc, segment, &command.bytes(), buffer).0
}

/// The check that a wrong byte of an interval fails, if one looks at it.
fn failed(desc: &Description, code: u8, at: usize) -> Option<u64> {
    let data = (desc.b >> desc.e) as usize;
    let guards = matches!(code, 0 | 1 | 4 | 5);
    let tags = matches!(code, 0 | 1 | 2 | 5);
    match at.checked_sub(data) {
        _ if desc.p == 0 => None,
        None | Some(0..2) if guards => Some(8),
        Some(2..4) if tags && desc.p == 2 && desc.ato == 1 => Some(9),
        Some(4..8) if tags && desc.p != 3 => Some(10),
        _ => None,
    }
}

#[test]
fn on_m() {
    let ask = |code, address, length| {
        let command = cdb(VERIFY, 10, code, address, length);
        Cdb {
            byte_check: 0b01,
            ..command
        }
    };
    let on_m = |command: &Cdb, buffer: &[u8]| compared(&M, &m(), command, buffer);
    // User data alone; the second block's wrong tag is stored.
    let data = bytes("0000000000000001 0000000000000002");
    assert_eq!(on_m(&ask(0b000, 7, 2), &data), outcome(10, 8, 1));
    assert_eq!(on_m(&ask(0b000, 7, 1), &data[..8]), plain(0));
    assert_eq!(on_m(&ask(0b000, 7, 1), &data[8..]), outcome(15, 7, 0));
    // Whole blocks; the same tag is wrong as it comes in, unless none is checked.
    assert_eq!(on_m(&ask(0b001, 7, 2), &m()[..32]), outcome(10, 8, 1));
    assert_eq!(on_m(&ask(0b011, 7, 2), &m()[..32]), plain(0));
    assert_eq!(on_m(&ask(0b100, 7, 2), &m()[..32]), plain(0));
    // The third block is escaped, and its guard wrong.
    let third = bytes("0000000000000003");
    assert_eq!(on_m(&ask(0b000, 9, 1), &third), plain(0));
    assert_eq!(on_m(&ask(0b000, 9, 1), &data[8..]), outcome(15, 9, 0));
    assert_eq!(on_m(&ask(0b001, 9, 1), &m()[32..]), outcome(8, 9, 0));
    assert_eq!(on_m(&ask(0b011, 9, 1), &m()[32..]), plain(0));
}

#[test]
fn each_differing_byte_at_each_type() {
    for p in 0..=3 {
        for ato in [0, 1] {
            let desc = shape(p, ato);
            let segment = right(&desc);
            let stored = desc.stored_block().unwrap() as usize;
            let step = stored >> desc.e;
            for code in codes(p) {
                let command = comparing(&desc, code, 3);
                let right = sent(&desc, &segment, &command);
                assert_eq!(compared(&desc, &segment, &command, &right), plain(0));
                let each = right.len() / 3;
                for at in 0..right.len() {
                    let mut other = right.clone();
                    other[at] ^= 0x10;
                    let address = 101 + (at / each) as u64;
                    // What is sent is checked if it has fields.
                    let check = failed(&desc, code, at % step).filter(|_| code != 0);
                    let wanted = match check {
                        Some(answer) => outcome(answer, address, (at / step) as u64),
                        None => outcome(15, address, 0),
                    };
                    assert_eq!(compared(&desc, &segment, &command, &other), wanted);
                }
                for at in 0..segment.len() {
                    let mut other = segment.clone();
                    other[at] ^= 0x10;
                    let address = 100 + (at / stored) as u64;
                    let is_data = at % step < (desc.b >> desc.e) as usize;
                    // What is stored is checked if what is sent has no fields;
                    // those that no check looks at are not compared then.
                    let check = failed(&desc, code, at % step).filter(|_| code == 0);
                    let wanted = match check {
                        _ if at < stored => plain(0),
                        Some(answer) => outcome(answer, address, ((at - stored) / step) as u64),
                        None if code == 0 && !is_data => plain(0),
                        None => outcome(15, address, 0),
                    };
                    assert_eq!(compared(&desc, &other, &command, &right), wanted);
                }
            }
        }
    }
}

#[test]
fn every_check_of_the_transfer_comes_before_the_comparison() {
    for p in 1..=3 {
        let desc = shape(p, 1);
        let intervals = 1 << desc.e;
        for code in codes(p) {
            let command = comparing(&desc, code, 3);
            for at in [0, 2, 4] {
                let data = (desc.b >> desc.e) as usize;
                let Some(check) = failed(&desc, code, data + at) else {
                    continue;
                };
                // The first block differs, the last interval of all is wrong.
                let last = 3 * intervals - 1;
                let wanted = outcome(check, 103, last as u64);
                let mut segment = right(&desc);
                let mut buffer = sent(&desc, &segment, &command);
                if code == 0 {
                    segment[fields_at(&desc, intervals + last) + at] ^= 1;
                    buffer[0] ^= 1;
                } else {
                    buffer[fields_at(&desc, last) + at] ^= 1;
                    segment[desc.stored_block().unwrap() as usize] ^= 1;
                }
                assert_eq!(compared(&desc, &segment, &command, &buffer), wanted);
                // The same one wrong in what is sent and in what is stored.
                let alike = if code == 0 {
                    sent(&desc, &segment, &command)
                } else {
                    let start = segment.len() - buffer.len();
                    segment[start..].copy_from_slice(&buffer);
                    buffer
                };
                assert_eq!(compared(&desc, &segment, &command, &alike), wanted);
            }
        }
    }
}

#[test]
fn what_is_not_checked_is_compared() {
    // Stored intervals under another code than 000: wrong throughout, they differ.
    for p in 1..=3 {
        let desc = shape(p, 1);
        let segment = right(&desc);
        let stored = desc.stored_block().unwrap() as usize;
        for code in 1..6 {
            let command = comparing(&desc, code, 3);
            let buffer = sent(&desc, &segment, &command);
            let mut wrong = segment.clone();
            wrong[2 * stored..].fill(0x77);
            let got = compared(&desc, &wrong, &command, &buffer);
            assert_eq!(got, outcome(15, 102, 0));
        }
        // Under 011 nothing is checked anywhere.
        let command = comparing(&desc, 0b011, 3);
        let wrong = vec![0x77; segment.len()];
        let mut buffer = wrong[stored..].to_vec();
        assert_eq!(compared(&desc, &wrong, &command, &buffer), plain(0));
        buffer[3 * stored - 1] ^= 1;
        let got = compared(&desc, &wrong, &command, &buffer);
        assert_eq!(got, outcome(15, 103, 0));
    }
}

#[test]
fn the_first_differing_block_is_named() {
    for p in 0..=3 {
        let desc = shape(p, 1);
        let segment = right(&desc);
        let stored = desc.stored_block().unwrap() as usize;
        for code in codes(p) {
            let command = comparing(&desc, code, 3);
            let right = sent(&desc, &segment, &command);
            for differing in 1..8u8 {
                let mut buffer = right.clone();
                let mut other = segment.clone();
                for block in (0..3).filter(|block| differing >> block & 1 == 1) {
                    // Its last byte, where no check looks at it.
                    if code == 0 {
                        buffer[(block + 1) * desc.b as usize - 1] ^= 0x80;
                    } else {
                        other[(block + 2) * stored - 1] ^= 0x80;
                    }
                }
                let address = 101 + u64::from(differing.trailing_zeros());
                let got = compared(&desc, &other, &command, &buffer);
                assert_eq!(got, outcome(15, address, 0));
            }
        }
    }
}

#[test]
fn escaped_blocks_are_compared() {
    for p in 1..=3 {
        let desc = shape(p, 1);
        let intervals = 1usize << desc.e;
        for bearer in 0..intervals {
            // The second block of the transfer is wrong throughout and one of its
            // intervals bears the escape.
            let mut segment = right(&desc);
            for place in 2 * intervals..3 * intervals {
                let at = fields_at(&desc, place);
                segment[at..at + 8].copy_from_slice(&[0xA5; 8]);
            }
            let at = fields_at(&desc, 2 * intervals + bearer);
            segment[at + 2..at + 8].fill(0xFF);
            // With 000 none of it is checked, and all its data compared.
            let command = comparing(&desc, 0, 3);
            let buffer = sent(&desc, &segment, &command);
            assert_eq!(compared(&desc, &segment, &command, &buffer), plain(0));
            let b = desc.b as usize;
            for at in b..2 * b {
                let mut other = buffer.clone();
                other[at] ^= 1;
                let got = compared(&desc, &segment, &command, &other);
                assert_eq!(got, outcome(15, 102, 0));
            }
            // With another code it differs from right blocks.
            for code in 1..6 {
                let command = comparing(&desc, code, 3);
                let buffer = sent(&desc, &right(&desc), &command);
                let got = compared(&desc, &segment, &command, &buffer);
                assert_eq!(got, outcome(15, 102, 0));
            }
        }
    }
}

#[test]
fn what_is_sent_has_no_escape() {
    for p in 1..=3 {
        let desc = shape(p, 0);
        let intervals = 1usize << desc.e;
        for code in 1..6 {
            let command = comparing(&desc, code, 3);
            let mut buffer = sent(&desc, &right(&desc), &command);
            for place in intervals..2 * intervals {
                buffer[fields_at(&desc, place)..][..8].fill(0xFF);
            }
            // Stored as it is sent: alike, and yet the fields are wrong.
            let mut segment = right(&desc);
            let start = segment.len() - buffer.len();
            segment[start..].copy_from_slice(&buffer);
            let wanted = match (code, p) {
                (0b011, _) | (0b010, 3) => plain(0),
                (0b010, _) => outcome(10, 102, intervals as u64),
                _ => outcome(8, 102, intervals as u64),
            };
            assert_eq!(compared(&desc, &segment, &command, &buffer), wanted);
        }
    }
}

#[test]
fn a_transfer_of_no_blocks_is_alike() {
    for p in 0..=3 {
        let desc = shape(p, 1);
        let segment = vec![0x77; desc.segment_length().unwrap() as usize];
        for code in codes(p) {
            for address in 100..=104 {
                let command = Cdb {
                    address,
                    ..comparing(&desc, code, 0)
                };
                assert_eq!(compared(&desc, &segment, &command, &[]), plain(0));
                assert_eq!(compared(&desc, &segment, &command, &[0]), plain(4));
            }
            for address in [99, 105] {
                let command = Cdb {
                    address,
                    ..comparing(&desc, code, 0)
                };
                assert_eq!(compared(&desc, &segment, &command, &[]), plain(7));
            }
        }
    }
}

#[test]
fn buffer_lengths_of_a_comparison() {
    for (p, e) in [(0, 0), (1, 0), (2, 0), (2, 3), (3, 0), (3, 1)] {
        let desc = Description { e, ..shape(p, 0) };
        let segment = vec![0x77; desc.segment_length().unwrap() as usize];
        let [b, stored] = [desc.b, desc.stored_block().unwrap()].map(|bytes| bytes as usize);
        for code in codes(p) {
            for length in 0..=3usize {
                let command = comparing(&desc, code, length as u32);
                let right = length * if code == 0 { b } else { stored };
                let others = [0, b, stored, length * b, length * stored, 4 * stored];
                let beside = [right + 1, right.saturating_sub(1), right + b];
                for given in others.into_iter().chain(beside) {
                    let got = compared(&desc, &segment, &command, &vec![0xC3; given]);
                    assert_eq!(got.answer == 4, given != right);
                }
            }
        }
    }
}

#[test]
fn byte_check_bits_10_and_11_are_refused() {
    for p in 0..=3 {
        let desc = shape(p, 0);
        let segment = right(&desc);
        for code in codes(p) {
            for byte_check in [0b10, 0b11] {
                let command = comparing(&desc, code, 3);
                let buffer = sent(&desc, &segment, &command);
                let other = Cdb {
                    byte_check,
                    ..command
                };
                assert_eq!(compared(&desc, &segment, &other, &buffer), plain(6));
                assert_eq!(compared(&desc, &segment, &other, &[]), plain(6));
                let far = Cdb {
                    address: 99,
                    ..other
                };
                assert_eq!(compared(&desc, &segment, &far, &buffer), plain(6));
            }
        }
    }
}

#[test]
fn the_address_of_a_difference() {
    for w in [0, 7, (1 << 32) - 2, (1 << 32) - 1, 1 << 32, (1 << 63) - 4] {
        for (p, size) in [(0, 10), (0, 16), (1, 12), (2, 10), (2, 32), (3, 16)] {
            if size < 16 && w + 4 > 1 << 32 {
                continue;
            }
            let desc = describe(p, 8, 0, w, 4, 0);
            let segment = build(&desc, |block, _| (0, (w + block) as u32));
            let command = Cdb {
                byte_check: 0b01,
                first: w as u32,
                ..cdb(VERIFY, size, 0, w, 4)
            };
            let right = sent(&desc, &segment, &command);
            assert_eq!(compared(&desc, &segment, &command, &right), plain(0));
            for block in 0..4 {
                let mut buffer = right.clone();
                buffer[8 * block] ^= 1;
                let got = compared(&desc, &segment, &command, &buffer);
                assert_eq!(got, outcome(15, w + block as u64, 0));
            }
        }
    }
}
