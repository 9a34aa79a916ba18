//! Which descriptions are segments, their sizes, and filling.

use reference::{Description, correct, fill, parity, rebuild};

use crate::support::*;

const TOP: u64 = 1 << 63;

/// Descriptions that are just inside a limit.
fn good() -> Vec<Description> {
    vec![
        M,
        describe(0, 8, 0, 0, 1, 0),
        describe(0, 4096, 0, 0, 2, 1),
        describe(1, 4096, 0, 0, 2, 1),
        describe(2, 8, 3, 0, 2, 0),
        describe(3, 4096, 3, 0, 2, 1),
        describe(3, 520, 3, 0, 1, 0),
        describe(1, 8, 0, TOP - 1, 1, 0),
        describe(1, 8, 0, TOP - 3, 3, 0),
        describe(2, 8, 0, TOP - 65_536, 65_536, 0),
        describe(0, 8, 0, 0, 65_536, 0),
    ]
}

/// Descriptions that are just outside, one number each.
pub fn bad() -> Vec<Description> {
    let mut bad = vec![
        describe(1, 8, 0, TOP, 1, 0),
        describe(1, 8, 0, TOP - 2, 3, 0),
        describe(2, 8, 0, TOP - 65_535, 65_536, 0),
        describe(0, 8, 1, 0, 1, 0),
        describe(1, 8, 1, 0, 1, 0),
    ];
    for p in [4, 5, 255, 256, TOP, u64::MAX] {
        bad.push(Description { p, ..M });
    }
    for b in [0, 1, 4, 7, 9, 12, 4095, 4097, 4104, 1 << 16, TOP, u64::MAX] {
        bad.push(Description { b, ..M });
    }
    for e in [4, 5, 63, 64, 65, 255, TOP, u64::MAX] {
        bad.push(describe(2, 8, e, 0, 1, 0));
        bad.push(describe(3, 4096, e, 0, 1, 0));
    }
    for n in [0, 65_537, 1 << 32, TOP, u64::MAX] {
        bad.push(Description { n, ..M });
    }
    for w in [TOP - 2, TOP, u64::MAX - 2, u64::MAX - 3, u64::MAX] {
        bad.push(Description { w, ..M });
    }
    for ato in [2, 3, 255, TOP, u64::MAX] {
        bad.push(Description { ato, ..M });
    }
    bad.push(describe(
        u64::MAX,
        u64::MAX,
        u64::MAX,
        u64::MAX,
        u64::MAX,
        u64::MAX,
    ));
    bad
}

#[test]
fn inside_the_limits() {
    for desc in good() {
        assert!(desc.fits(), "{desc:?}");
    }
}

#[test]
fn one_past_each_limit_is_answer_1_everywhere() {
    for desc in bad() {
        assert!(!desc.fits(), "{desc:?}");
        assert_eq!(desc.stored_block(), None);
        assert_eq!(desc.segment_length(), None);
        let command = cdb(READ, 10, 0, 7, 1).bytes();
        assert_eq!(run(&desc, &m(), &command, &[0; 8]).0, plain(1), "{desc:?}");
        assert_eq!(run(&desc, &[], &[], &[]).0, plain(1));
        let mut out = [0xC3; 48];
        assert_eq!(fill(&desc, &mut out), 1);
        assert_eq!(parity(&desc, 1, &m(), &mut out), 1);
        assert_eq!(parity(&desc, 0, &[], &mut out), 1);
        assert_eq!(rebuild(&desc, 1, 9, &m(), &mut out), 1);
        assert_eq!(correct(&desc, &m(), &m(), &mut out), 1);
        assert_eq!(out, [0xC3; 48]);
    }
}

#[test]
fn sizes() {
    for p in 0..=3 {
        for e in 0..=if p < 2 { 0 } else { 3 } {
            for b in (8..=4096).step_by(8) {
                let desc = describe(p, b, e, 5, 3, 0);
                let stored = if p == 0 { b } else { b + 8 * (1 << e) };
                assert_eq!(desc.stored_block(), Some(stored));
                assert_eq!(desc.segment_length(), Some(3 * stored));
            }
        }
    }
    let greatest = describe(3, 4096, 3, 0, 65_536, 0);
    assert_eq!(greatest.segment_length(), Some(65_536 * 4_160));
}

#[test]
fn segment_length_is_exact() {
    let command = cdb(READ, 10, 0, 7, 1).bytes();
    for length in [0, 1, 32, 47, 49, 64, 96] {
        let segment = vec![0; length];
        assert_eq!(run(&M, &segment, &command, &[0; 8]).0, plain(2));
        // Before anything in the command is looked at.
        assert_eq!(run(&M, &segment, &[], &[]).0, plain(2));
        let mut lent = vec![0xC3; length];
        assert_eq!(fill(&M, &mut lent), 2);
        assert_eq!(lent, vec![0xC3; length]);
    }
}

#[test]
fn filling() {
    let mut out = [0xC3; 48];
    assert_eq!(fill(&M, &mut out), 0);
    assert_eq!(
        out[..],
        bytes("0000000000000000 FFFFFFFFFFFFFFFF").repeat(3)
    );
    let mut out = [0xC3; 2 * 32];
    assert_eq!(fill(&describe(3, 16, 1, 0, 2, 1), &mut out), 0);
    assert_eq!(
        out[..],
        bytes("0000000000000000 FFFFFFFFFFFFFFFF").repeat(4)
    );
    let mut out = [0xC3; 3 * 16];
    assert_eq!(fill(&describe(0, 16, 0, 0, 3, 0), &mut out), 0);
    assert_eq!(out, [0; 48]);
}

#[test]
fn a_fresh_segment_is_read_without_a_fault() {
    for p in 1..=3 {
        let desc = describe(p, 8, if p == 1 { 0 } else { 1 }, 9, 2, 0);
        let mut segment = vec![0; desc.segment_length().unwrap() as usize];
        assert_eq!(fill(&desc, &mut segment), 0);
        assert_eq!(answer(&desc, &segment, &cdb(READ, 16, 0, 9, 2)), plain(0));
        assert_eq!(answer(&desc, &segment, &cdb(VERIFY, 16, 0, 9, 2)), plain(0));
    }
}
