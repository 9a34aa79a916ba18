//! A second, slow telling of the rules, and very many small cases for both.
//!
//! It looks at every interval by its place in the transfer, takes the guard by
//! long division, and finds the first fault by looking at all of them, and the
//! first differing block by looking at all that a READ would move.

use reference::{Description, Outcome, guard_by_division};

use crate::support::*;

fn number(bytes: &[u8]) -> u128 {
    bytes.iter().fold(0, |sum, &byte| sum * 256 + byte as u128)
}

/// The outcome, the segment and the buffer afterwards.
fn told(
    desc: &Description,
    segment: &[u8],
    command: &[u8],
    buffer: &[u8],
) -> (Outcome, Vec<u8>, Vec<u8>) {
    let same = |outcome| (outcome, segment.to_vec(), buffer.to_vec());
    let refuse = |answer| same(plain(answer));
    let Description { p, b, e, w, n, ato } = *desc;

    let fits = p < 4
        && ato < 2
        && b % 8 == 0
        && (8..=4096).contains(&b)
        && (e == 0 || e < 4 && p > 1)
        && (1..=65_536).contains(&n)
        && w as u128 + n as u128 <= 1 << 63;
    if !fits {
        return refuse(1);
    }
    let per_block = 1usize << e;
    let data = b as usize / per_block;
    let step = if p == 0 { data } else { data + 8 };
    let stored = step * per_block;
    if segment.len() != n as usize * stored {
        return refuse(2);
    }

    // (bytes, READ, WRITE, VERIFY, address, length)
    let rows = [
        (10, 0x28, 0x2A, 0x2F, 2..6, 7..9),
        (12, 0xA8, 0xAA, 0xAF, 2..6, 6..10),
        (16, 0x88, 0x8A, 0x8F, 2..10, 10..14),
        (32, 0x0009, 0x000B, 0x000A, 12..20, 28..32),
    ];
    if command.is_empty() {
        return refuse(3);
    }
    let is_long = command[0] == 0x7F;
    if is_long && command.len() < 10 {
        return refuse(3);
    }
    let name = if is_long {
        number(&command[8..10])
    } else {
        number(&command[..1])
    };
    let found = rows
        .iter()
        .filter(|row| (row.0 == 32) == is_long)
        .find_map(|row| {
            [row.1, row.2, row.3]
                .iter()
                .position(|&own| own == name)
                .map(|operation| (operation, row))
        });
    let Some((operation, row)) = found else {
        return refuse(5);
    };
    if command.len() != row.0 {
        return refuse(3);
    }
    if is_long && command[7] != 0x18 {
        return refuse(6);
    }
    let protect = command[if is_long { 10 } else { 1 }];
    let code = protect / 32;
    if is_long && p != 2 {
        return refuse(5);
    }
    if p == 2 && !is_long && code != 0 {
        return refuse(5);
    }
    if p == 0 && code != 0 {
        return refuse(6);
    }
    if code == 6 || code == 7 {
        return refuse(6);
    }
    let byte_check = protect / 2 % 4;
    if operation == VERIFY && (byte_check == 2 || byte_check == 3) {
        return refuse(6);
    }
    let compares = operation == VERIFY && byte_check == 1;
    let address = number(&command[row.4.clone()]);
    let length = number(&command[row.5.clone()]);
    if address < w as u128 || address + length > w as u128 + n as u128 {
        return refuse(7);
    }
    let length = length as usize;
    let each = if code == 0 { b as usize } else { stored };
    let wanted = if operation == VERIFY && !compares {
        0
    } else {
        length * each
    };
    if buffer.len() != wanted {
        return refuse(4);
    }

    let start = (address - w as u128) as usize * stored;
    let own = start..start + length * stored;
    let first_tag = if is_long { number(&command[20..24]) } else { 0 };
    let (tag, mask) = if is_long {
        (number(&command[24..26]), number(&command[26..28]))
    } else {
        (0, 0)
    };
    let expected = |place: usize| match p {
        1 => Some((address + place as u128) % (1 << 32)),
        2 if is_long => Some((first_tag + place as u128) % (1 << 32)),
        _ => None,
    };
    let places = if p == 0 { 0 } else { length * per_block };

    if operation == WRITE && code == 0 {
        let mut after = segment.to_vec();
        for place in 0..length * per_block {
            let from = &buffer[place * data..][..data];
            let mut bytes = from.to_vec();
            if p != 0 {
                let application = match (ato, is_long) {
                    (0, _) => 0,
                    (_, true) => tag,
                    _ => 0xFFFF,
                };
                let block = address + (place / per_block) as u128;
                let reference = match expected(place) {
                    Some(reference) => reference,
                    None if p == 2 => {
                        (block * per_block as u128 + (place % per_block) as u128) % (1 << 32)
                    }
                    None => 0,
                };
                bytes.extend(guard_by_division(from).to_be_bytes());
                bytes.extend((application as u16).to_be_bytes());
                bytes.extend((reference as u32).to_be_bytes());
            }
            after[start + place * step..][..step].copy_from_slice(&bytes);
        }
        return (plain(0), after, buffer.to_vec());
    }

    let comes_in = operation == WRITE || compares && code != 0;
    let judged = if comes_in {
        buffer
    } else {
        &segment[own.clone()]
    };
    let at = |place: usize| &judged[place * step..][..step];
    let escape = |place: usize| {
        let fields = &at(place)[data..];
        fields[2..4] == [0xFF; 2] && (p != 3 || fields[4..] == [0xFF; 4])
    };
    let skipped = |place: usize| {
        let first = place / per_block * per_block;
        !comes_in && (first..first + per_block).any(escape)
    };
    let fault = |place: usize| -> Option<u64> {
        if skipped(place) {
            return None;
        }
        let (bytes, fields) = at(place).split_at(data);
        let guard_wrong = number(&fields[..2]) != u128::from(guard_by_division(bytes));
        let application_wrong =
            is_long && ato == 1 && (number(&fields[2..4]) & mask) != (tag & mask);
        let reference_wrong = expected(place).is_some_and(|tag| number(&fields[4..]) != tag);
        let yes = |codes: &[u8]| codes.contains(&code);
        if guard_wrong && yes(&[0, 1, 5, 4]) {
            Some(8)
        } else if application_wrong && yes(&[0, 1, 5, 2]) {
            Some(9)
        } else if reference_wrong && yes(&[0, 1, 5, 2]) {
            Some(10)
        } else {
            None
        }
    };
    let faults: Vec<(usize, u64)> = (0..places)
        .filter_map(|place| fault(place).map(|answer| (place, answer)))
        .collect();
    if let Some(&(place, answer)) = faults.first() {
        let block = address as u64 + (place / per_block) as u64;
        return same(outcome(answer, block, place as u64));
    }

    if operation == WRITE {
        let mut after = segment.to_vec();
        after[own].copy_from_slice(buffer);
        return (plain(0), after, buffer.to_vec());
    }
    let moved: Vec<u8> = if code == 0 {
        segment[own]
            .chunks(step)
            .flat_map(|interval| interval[..data].to_vec())
            .collect()
    } else {
        segment[own].to_vec()
    };
    if operation == READ {
        return (plain(0), segment.to_vec(), moved);
    }
    let differing: Vec<usize> = (0..length)
        .filter(|block| compares && moved[block * each..][..each] != buffer[block * each..][..each])
        .collect();
    match differing.first() {
        Some(&block) => same(outcome(15, address as u64 + block as u64, 0)),
        None => refuse(0),
    }
}

/// Blocks that are right from some first reference tag on, with a few faults
/// and escapes.
fn blocks(
    numbers: &mut Numbers,
    desc: &Description,
    first: u32,
    count: u64,
    application: u16,
) -> Vec<u8> {
    let per_block = 1 << desc.e;
    let data = (desc.b / per_block) as usize;
    let mut out = Vec::new();
    for place in 0..count * per_block {
        let bytes = numbers.bytes(data);
        if desc.p == 0 {
            out.extend(bytes);
            continue;
        }
        let reference = first.wrapping_add(place as u32);
        let application = if numbers.once_in(12) {
            0xFFFF
        } else {
            application
        };
        let mut whole = interval(&bytes, application, reference);
        if numbers.once_in(20) {
            whole[data + 4..].fill(0xFF);
        }
        if numbers.once_in(12) {
            let at = numbers.below(whole.len() as u64) as usize;
            whole[at] ^= 1 << numbers.below(8);
        }
        out.extend(whole);
    }
    out
}

#[test]
fn very_many_small_cases() {
    let mut numbers = Numbers(5);
    let mut seen = [0u32; 16];
    for _ in 0..120_000 {
        let p = numbers.below(4);
        let n = 1 + numbers.below(5);
        let mut desc = Description {
            p,
            b: 8 * (1 + numbers.below(3)),
            e: if p < 2 { 0 } else { numbers.below(4) },
            w: match numbers.below(4) {
                0 => 0,
                1 => (1 << 32) - numbers.below(6),
                2 => (1 << 63) - n,
                _ => numbers.below(100),
            },
            n,
            ato: numbers.below(2),
        };
        let size = if p == 2 || numbers.once_in(40) {
            numbers.pick(&[10, 12, 16, 32, 32, 32])
        } else {
            numbers.pick(&[10, 12, 16, 16])
        };
        let offset = numbers.below(n);
        let mut command = Cdb {
            operation: numbers.pick(&OPERATIONS),
            size,
            code: if p == 0 || p == 2 && size != 32 {
                0
            } else {
                numbers.below(6) as u8
            },
            byte_check: numbers.below(2) as u8,
            address: desc.w + offset,
            length: numbers.below(n - offset + 1) as u32,
            first: numbers.pick(&[0, 7, 0xFFFF_FFFE, 0xFFFF_FFFF]),
            application: numbers.pick(&[0, 0x1234, 0xFFFF]),
            mask: numbers.pick(&[0, 0x00FF, 0xFFFF]),
        };
        let base = if p == 1 {
            command.address as u32
        } else {
            command.first
        };
        let before = base.wrapping_sub((offset << desc.e) as u32);
        let segment_tag = numbers.pick(&[command.application, 0x12FF]);
        let mut segment = blocks(&mut numbers, &desc, before, n, segment_tag);
        let length = right_length(&desc, &command);
        let mut buffer = if command.compares() {
            sent(&desc, &segment, &command)
        } else if command.operation == WRITE && command.code != 0 {
            let count = u64::from(command.length);
            blocks(&mut numbers, &desc, base, count, command.application)
        } else {
            numbers.bytes(length)
        };
        if command.compares() && length > 0 && numbers.once_in(2) {
            let at = numbers.below(length as u64) as usize;
            buffer[at] ^= 1 << numbers.below(8);
        }

        // One thing amiss now and then.
        match numbers.below(40) {
            0 => command.code = numbers.below(8) as u8,
            1 => command.address = command.address.wrapping_sub(1 + offset),
            2 => command.length += 1 + numbers.below(5) as u32,
            3 => command.address = numbers.next(),
            4 => buffer.push(0),
            5 => segment.truncate(segment.len() - 1),
            6 => desc.p = numbers.below(5),
            7 => desc.w = numbers.next(),
            8 => desc.e = numbers.below(5),
            9 => command.byte_check = numbers.below(4) as u8,
            _ => {}
        }
        let mut laid = command.bytes();
        match numbers.below(40) {
            0 => laid.truncate(numbers.below(34) as usize),
            1 => laid.push(0),
            2 => {
                let at = numbers.below(laid.len() as u64) as usize;
                laid[at] ^= 1 << numbers.below(8);
            }
            3 => laid = numbers.bytes(size),
            _ => {}
        }

        let got = run(&desc, &segment, &laid, &buffer);
        let wanted = told(&desc, &segment, &laid, &buffer);
        assert_eq!(
            got, wanted,
            "{desc:?} {laid:02X?} {segment:02X?} {buffer:02X?}"
        );
        seen[got.0.answer as usize] += 1;
    }
    // Every answer a command can have has been met, and often.
    for answer in [0, 1, 2, 3, 4, 5, 6, 7, 8, 9, 10, 15] {
        assert!(
            seen[answer] > 300,
            "answer {answer}: {} times",
            seen[answer]
        );
    }
    assert_eq!(seen[11..15], [0; 4]);
}
