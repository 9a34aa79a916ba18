//! Every case of "Both sides of the line" but the guards and the listing.

use reference::{parity, sense};

use crate::support::*;

fn on_m(command: Cdb) -> reference::Outcome {
    answer(&M, &m(), &command)
}

#[test]
fn read_on_m() {
    assert_eq!(on_m(cdb(READ, 10, 0b001, 7, 2)), outcome(10, 8, 1));
    assert_eq!(on_m(cdb(READ, 10, 0b011, 7, 2)), plain(0));
    assert_eq!(on_m(cdb(READ, 10, 0b100, 7, 2)), plain(0));
    assert_eq!(on_m(cdb(READ, 10, 0b001, 9, 1)), plain(0));
}

#[test]
fn a_good_read_fills_its_buffer() {
    let (good, _, buffer) = run(
        &M,
        &m(),
        &cdb(READ, 10, 0b011, 7, 2).bytes(),
        &[0xC3; 2 * 16],
    );
    assert_eq!(good, plain(0));
    assert_eq!(buffer, m()[..32]);
    let (good, _, buffer) = run(&M, &m(), &cdb(READ, 10, 0, 9, 1).bytes(), &[0xC3; 8]);
    assert_eq!(good, plain(0));
    assert_eq!(buffer, bytes("0000000000000003"));
}

#[test]
fn write_of_the_third_block() {
    let command = cdb(WRITE, 10, 0b001, 9, 1).bytes();
    assert_eq!(run(&M, &m(), &command, &m()[32..]).0, outcome(8, 9, 0));
}

#[test]
fn addresses_on_m() {
    assert_eq!(on_m(cdb(READ, 10, 0, 10, 0)), plain(0));
    assert_eq!(on_m(cdb(READ, 10, 0, 10, 1)), plain(7));
    assert_eq!(on_m(cdb(READ, 10, 0, 6, 0)), plain(7));
}

#[test]
fn refused_commands_on_m() {
    assert_eq!(on_m(cdb(READ, 10, 0b110, 7, 1)), plain(6));
    assert_eq!(on_m(cdb(READ, 32, 0, 7, 1)), plain(5));
    assert_eq!(run(&M, &m(), &[0; 10], &[]).0, plain(5));
    let mut eleven = cdb(READ, 10, 0, 7, 1).bytes();
    eleven.push(0);
    assert_eq!(run(&M, &m(), &eleven, &[0; 8]).0, plain(3));
}

#[test]
fn inserted_reference_wraps() {
    let desc = describe(2, 8, 1, 0, 1, 0);
    let command = long(WRITE, 0, 0, 1, 0xFFFF_FFFF).bytes();
    let (good, segment, _) = run(&desc, &[0xC3; 24], &command, &[0; 8]);
    assert_eq!(good, plain(0));
    assert_eq!(
        segment,
        bytes("00000000 0000 0000 FFFFFFFF  00000000 0000 0000 00000000")
    );
}

#[test]
fn parity_of_two_members() {
    let mut members = m()[..16].to_vec();
    members.extend(bytes("0000000000000002 9CD9 0000 00000007"));
    let mut out = [0xC3; 16];
    assert_eq!(
        parity(&describe(1, 8, 0, 7, 1, 0), 2, &members, &mut out),
        0
    );
    assert_eq!(out[..], bytes("0000000000000003 176E 0000 00000000"));
}

#[test]
fn the_sense_of_each_answer() {
    for number in (0..20).chain([u64::MAX]) {
        let wanted = match number {
            5 => Some((0x05, 0x20, 0x00)),
            6 => Some((0x05, 0x24, 0x00)),
            7 => Some((0x05, 0x21, 0x00)),
            8 => Some((0x0B, 0x10, 0x01)),
            9 => Some((0x0B, 0x10, 0x02)),
            10 => Some((0x0B, 0x10, 0x03)),
            12 => Some((0x05, 0x26, 0x00)),
            15 => Some((0x0E, 0x1D, 0x00)),
            _ => None,
        };
        assert_eq!(sense(number), wanted, "answer {number}");
    }
}
