//! The guard.

use reference::{GUARD_TABLE, guard, guard_by_division};

use crate::support::Numbers;

fn both(data: &[u8]) -> u16 {
    let value = guard(data);
    assert_eq!(value, guard_by_division(data));
    value
}

#[test]
fn vectors_of_002() {
    assert_eq!(both(&[0x00; 32]), 0x0000);
    assert_eq!(both(&[0xFF; 32]), 0xA293);
    let up: Vec<u8> = (0x00..=0x1F).collect();
    assert_eq!(both(&up), 0x0224);
    let mut two = [0x00; 32];
    two[..2].fill(0xFF);
    assert_eq!(both(&two), 0x21B8);
    let down: Vec<u8> = (0xE0..=0xFF).rev().collect();
    assert_eq!(both(&down), 0xA0B7);
}

#[test]
fn entry_v_is_the_guard_of_the_byte_v() {
    for v in 0..=255u8 {
        assert_eq!(GUARD_TABLE[usize::from(v)], guard_by_division(&[v]));
    }
}

#[test]
fn both_ways_agree() {
    assert_eq!(both(&[]), 0);
    let mut numbers = Numbers(1);
    for length in (0..200).chain([511, 512, 4095, 4096, 4097]) {
        both(&numbers.bytes(length));
    }
}

#[test]
fn data_with_its_guard_behind_it_has_guard_zero() {
    let mut data = Numbers(2).bytes(64);
    data.extend(both(&data).to_be_bytes());
    assert_eq!(both(&data), 0);
}
