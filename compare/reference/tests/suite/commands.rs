//! Which commands are served, the order of refusals, and addresses.

use reference::Description;

use crate::support::*;

const SERVED: [u8; 10] = [0x28, 0x2A, 0x2F, 0xA8, 0xAA, 0xAF, 0x88, 0x8A, 0x8F, 0x7F];

fn raw(desc: &Description, segment: &[u8], command: &[u8], buffer: usize) -> u64 {
    run(desc, segment, command, &vec![0xC3; buffer]).0.answer
}

#[test]
fn lengths_and_operations() {
    assert_eq!(raw(&M, &m(), &[], 0), 3);
    for first in 0..=255u8 {
        for length in 1..40usize {
            let mut command = vec![0; length];
            command[0] = first;
            let got = raw(&M, &m(), &command, 999);
            if !SERVED.contains(&first) {
                assert_eq!(got, 5, "{first:02X} of {length}");
            } else if first == 0x7F {
                assert_eq!(got, if length < 10 { 3 } else { 5 });
            } else {
                let size = match first >> 4 {
                    0x2 => 10,
                    0xA => 12,
                    _ => 16,
                };
                // Address 0 is below W, which is met only past the length.
                let wanted = if length == size { 7 } else { 3 };
                assert_eq!(got, wanted, "{first:02X} of {length}");
            }
        }
    }
}

#[test]
fn service_actions_of_7f() {
    let desc = describe(2, 8, 0, 7, 1, 0);
    let segment = build(&desc, |_, _| (0, 0));
    for action in 0..=0xFFFFu16 {
        let mut command = vec![0; 32];
        command[0] = 0x7F;
        command[8..10].copy_from_slice(&action.to_be_bytes());
        let served = [0x0009, 0x000A, 0x000B].contains(&action);
        // Not served 5; served but byte 7 not 18h 6.
        assert_eq!(
            raw(&desc, &segment, &command, 0),
            if served { 6 } else { 5 }
        );
        command.truncate(10);
        assert_eq!(
            raw(&desc, &segment, &command, 0),
            if served { 3 } else { 5 }
        );
    }
    for length in (1..10).chain(10..32).chain([33, 64]) {
        for operation in OPERATIONS {
            let mut command = long(operation, 0, 7, 1, 0).bytes();
            command.resize(length, 0);
            assert_eq!(raw(&desc, &segment, &command, 8), 3);
        }
    }
    for seventh in (0..=255u8).filter(|&seventh| seventh != 0x18) {
        for (p, ato) in [(0, 0), (1, 0), (2, 1), (3, 1)] {
            let desc = Description { p, ato, ..desc };
            let segment = build(&desc, |_, _| (0, 0));
            let mut command = long(READ, 0b111, 0, 1, 0).bytes();
            command[7] = seventh;
            assert_eq!(raw(&desc, &segment, &command, 8), 6);
        }
    }
}

#[test]
fn type_rules_and_codes() {
    for p in 0..=3 {
        let desc = describe(p, 8, 0, 7, 2, 0);
        let segment = build(&desc, |block, _| (0, 7 + block as u32));
        for operation in OPERATIONS {
            for size in SIZES {
                for code in 0..8 {
                    let refused = if size == 32 && p != 2 || p == 2 && size != 32 && code != 0 {
                        Some(5)
                    } else if p == 0 && code != 0 || code >= 6 {
                        Some(6)
                    } else {
                        None
                    };
                    // Out of range, then in range with a buffer that is wrong.
                    let far = cdb(operation, size, code, 0, 1).bytes();
                    assert_eq!(raw(&desc, &segment, &far, 1), refused.unwrap_or(7));
                    let near = cdb(operation, size, code, 8, 1).bytes();
                    assert_eq!(raw(&desc, &segment, &near, 1), refused.unwrap_or(4));
                    // Nothing moved: good wherever nothing refuses earlier.
                    let none = cdb(operation, size, code, 8, 0).bytes();
                    assert_eq!(raw(&desc, &segment, &none, 0), refused.unwrap_or(0));
                    assert_eq!(raw(&desc, &segment, &none, 1), refused.unwrap_or(4));
                }
            }
        }
    }
}

#[test]
fn byte_check_bits() {
    for p in 0..=3 {
        let desc = describe(p, 8, 0, 7, 2, 0);
        let segment = build(&desc, |block, _| (0, 7 + block as u32));
        for size in SIZES {
            if (size == 32) != (p == 2) {
                continue;
            }
            for operation in OPERATIONS {
                for bits in 0..32u8 {
                    let command = Cdb {
                        first: 7,
                        byte_check: bits >> 1 & 3,
                        ..cdb(operation, size, 0, 7, 1)
                    };
                    let mut laid = command.bytes();
                    laid[if size == 32 { 10 } else { 1 }] |= bits;
                    let buffer = right_length(&desc, &command);
                    // What is sent is not what is stored.
                    let (near, far) = match (operation, command.byte_check) {
                        (READ | WRITE, _) | (_, 0b00) => (0, 7),
                        (_, 0b01) => (15, 7),
                        _ => (6, 6),
                    };
                    assert_eq!(raw(&desc, &segment, &laid, buffer), near);
                    // They come before the address.
                    let low = Cdb {
                        address: 6,
                        ..command
                    };
                    let mut laid = low.bytes();
                    laid[if size == 32 { 10 } else { 1 }] |= bits;
                    assert_eq!(raw(&desc, &segment, &laid, buffer), far);
                }
            }
        }
    }
}

#[test]
fn no_other_bit_changes_an_answer() {
    for p in 0..=3 {
        let desc = describe(p, 8, 0, 7, 2, 1);
        let segment = build(&desc, |block, _| (0x1234, 7 + block as u32));
        for operation in OPERATIONS {
            for size in SIZES {
                if p != 2 && size == 32 {
                    continue;
                }
                let command = Cdb {
                    first: 7,
                    ..cdb(operation, size, 0, 7, 2)
                }
                .tags(0x1234, 0xFFFF);
                let buffer = vec![0x5A; right_length(&desc, &command)];
                let plain_run = run(&desc, &segment, &command.bytes(), &buffer);
                assert_eq!(plain_run.0, plain(0));
                let free: Vec<usize> = match size {
                    10 => vec![6, 9],
                    12 => vec![10, 11],
                    16 => vec![14, 15],
                    _ => vec![1, 2, 3, 4, 5, 6, 11],
                };
                for at in free {
                    for value in [1, 0x80, 0xFF] {
                        let mut laid = command.bytes();
                        laid[at] = value;
                        assert_eq!(run(&desc, &segment, &laid, &buffer), plain_run);
                    }
                }
            }
        }
    }
}

#[test]
fn addresses_at_the_edges() {
    for w in [0, 7, 0xFFFF_FFFE, (1 << 63) - 3] {
        let desc = describe(2, 8, 0, w, 3, 0);
        let segment = build(&desc, |_, _| (0, 0));
        for size in [16, 32] {
            for operation in OPERATIONS {
                for length in 0..6u32 {
                    for offset in -3..=6i128 {
                        let address = i128::from(w) + offset;
                        let Ok(address) = u64::try_from(address) else {
                            continue;
                        };
                        let command = cdb(operation, size, 0, address, length);
                        let inside = offset >= 0 && offset + i128::from(length) <= 3;
                        let code_011 = Cdb {
                            code: if size == 32 { 0b011 } else { 0 },
                            ..command
                        };
                        let got = answer(&desc, &segment, &code_011);
                        assert_eq!(got, plain(if inside { 0 } else { 7 }));
                    }
                }
            }
        }
    }
}

#[test]
fn addresses_near_2_to_the_64() {
    for w in [0, 1, 7, (1 << 63) - 3] {
        let desc = describe(2, 8, 0, w, 3, 0);
        let segment = build(&desc, |_, _| (0, 0));
        for size in [16, 32] {
            for address in [u64::MAX, u64::MAX - 1, u64::MAX - 7, 1 << 63, (1 << 63) + 1] {
                for length in [0, 1, 2, 8, 9, u32::MAX - 1, u32::MAX] {
                    for operation in OPERATIONS {
                        // Nothing moved just behind the highest segment is good.
                        let behind = address == w + 3 && length == 0;
                        let wanted = plain(if behind { 0 } else { 7 });
                        let command = cdb(operation, size, 0, address, length);
                        assert_eq!(answer(&desc, &segment, &command), wanted);
                    }
                }
            }
            for length in [4, 65_536, 65_537, 1 << 31, u32::MAX] {
                let command = cdb(READ, size, 0, w, length);
                assert_eq!(answer(&desc, &segment, &command), plain(7));
            }
        }
    }
}

#[test]
fn short_addresses_do_not_reach_a_high_segment() {
    let desc = describe(1, 8, 0, 1 << 32, 2, 0);
    let segment = build(&desc, |block, _| (0, block as u32));
    for size in [10, 12] {
        assert_eq!(answer(&desc, &segment, &cdb(READ, size, 0, 0, 1)), plain(7));
    }
    let command = cdb(READ, 16, 0b001, 1 << 32, 2);
    assert_eq!(answer(&desc, &segment, &command), plain(0));
}

#[test]
fn buffer_lengths() {
    for (p, e) in [(0, 0), (1, 0), (2, 0), (2, 1), (3, 3)] {
        let desc = describe(p, 16, e, 7, 3, 0);
        let segment = build(&desc, |block, _| (0, 7 + block as u32));
        let stored = desc.stored_block().unwrap() as usize;
        for operation in OPERATIONS {
            for code in if p == 0 || p == 2 { 0..1 } else { 0..6 } {
                for length in 0..3usize {
                    let wanted = match (operation, code) {
                        (VERIFY, _) => 0,
                        (_, 0) => 16 * length,
                        _ => stored * length,
                    };
                    let command = cdb(operation, 12, code, 7, length as u32).bytes();
                    for given in [0, 1, 16, stored, 2 * 16, 2 * stored, 2 * stored + 1] {
                        if given != wanted {
                            assert_eq!(raw(&desc, &segment, &command, given), 4);
                        }
                    }
                    if operation != WRITE {
                        assert_ne!(raw(&desc, &segment, &command, wanted), 4);
                    }
                }
            }
        }
    }
}

#[test]
fn ten_byte_length_is_two_bytes() {
    let desc = describe(0, 8, 0, 0, 65_536, 0);
    let segment = vec![0x5A; 8 * 65_536];
    let command = cdb(READ, 10, 0, 0, 65_535);
    assert_eq!(answer(&desc, &segment, &command), plain(0));
    let command = cdb(READ, 10, 0, 2, 65_535);
    assert_eq!(answer(&desc, &segment, &command), plain(7));
    let command = cdb(VERIFY, 12, 0, 0, 65_536);
    assert_eq!(answer(&desc, &segment, &command), plain(0));
}
