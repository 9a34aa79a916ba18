//! Parity, rebuilding, correcting.

use reference::{Description, correct, parity, rebuild};

use crate::support::*;

const SHAPES: [Description; 3] = [
    Description {
        p: 1,
        b: 8,
        e: 0,
        w: 0,
        n: 3,
        ato: 0,
    },
    Description {
        p: 2,
        b: 16,
        e: 1,
        w: 9,
        n: 2,
        ato: 1,
    },
    Description {
        p: 3,
        b: 24,
        e: 3,
        w: 1,
        n: 1,
        ato: 0,
    },
];

fn part(desc: &Description) -> usize {
    desc.segment_length().unwrap() as usize
}

#[test]
fn parity_rebuild_correct_for_every_k() {
    let mut numbers = Numbers(3);
    for desc in SHAPES {
        let part = part(&desc);
        for k in 1..=16usize {
            let members = numbers.bytes(k * part);
            let mut sum = vec![0xC3; part];
            assert_eq!(parity(&desc, k as u64, &members, &mut sum), 0);
            for (at, byte) in sum.iter().enumerate() {
                let wanted = (0..k).fold(0, |sum, member| sum ^ members[member * part + at]);
                assert_eq!(*byte, wanted);
            }

            let parts = [&members[..], &sum[..]].concat();
            for lost in 0..=k {
                let mut damaged = parts.clone();
                damaged[lost * part..][..part].copy_from_slice(&numbers.bytes(part));
                let mut out = vec![0xC3; part];
                assert_eq!(rebuild(&desc, k as u64, lost as u64, &damaged, &mut out), 0);
                assert_eq!(out, parts[lost * part..][..part]);
            }

            let new = numbers.bytes(part);
            let changed = numbers.below(k as u64) as usize;
            let old = members[changed * part..][..part].to_vec();
            let mut corrected = sum.clone();
            assert_eq!(correct(&desc, &old, &new, &mut corrected), 0);
            let mut renewed = members.clone();
            renewed[changed * part..][..part].copy_from_slice(&new);
            let mut fresh = vec![0; part];
            assert_eq!(parity(&desc, k as u64, &renewed, &mut fresh), 0);
            assert_eq!(corrected, fresh);
        }
    }
}

#[test]
fn shapes_that_are_refused() {
    let desc = SHAPES[0];
    let part = part(&desc);
    let many = vec![0u8; 18 * part];
    let mut out = vec![0xC3; part];
    for k in [0, 17, 1 << 32, 1 << 63, u64::MAX] {
        let members = &many[..k.min(17) as usize * part];
        assert_eq!(parity(&desc, k, members, &mut out), 11);
        let parts = &many[..(k.min(17) as usize + 1) * part];
        assert_eq!(rebuild(&desc, k, 0, parts, &mut out), 11);
    }
    for lost in [4, 5, 1 << 32, u64::MAX] {
        assert_eq!(rebuild(&desc, 3, lost, &many[..4 * part], &mut out), 11);
    }
    for length in [0, 1, 2 * part, 3 * part - 1, 3 * part + 1, 4 * part] {
        assert_eq!(parity(&desc, 3, &many[..length], &mut out), 11);
    }
    for length in [0, 1, 3 * part, 4 * part - 1, 4 * part + 1, 5 * part] {
        assert_eq!(rebuild(&desc, 3, 0, &many[..length], &mut out), 11);
    }
    for length in [0, part - 1] {
        let short = &mut out[..length];
        assert_eq!(parity(&desc, 3, &many[..3 * part], short), 11);
        assert_eq!(rebuild(&desc, 3, 0, &many[..4 * part], short), 11);
        assert_eq!(correct(&desc, &many[..part], &many[..part], short), 11);
        let short = &many[..length];
        assert_eq!(correct(&desc, short, &many[..part], &mut out), 11);
        assert_eq!(correct(&desc, &many[..part], short, &mut out), 11);
    }
    assert_eq!(out, vec![0xC3; part]);
    let mut greater = vec![0xC3; part + 1];
    assert_eq!(parity(&desc, 3, &many[..3 * part], &mut greater), 11);
    assert_eq!(rebuild(&desc, 3, 0, &many[..4 * part], &mut greater), 11);
    assert_eq!(greater, vec![0xC3; part + 1]);
}

#[test]
fn type_0_has_no_stripes() {
    let desc = describe(0, 8, 0, 0, 1, 0);
    let mut out = [0xC3; 8];
    assert_eq!(parity(&desc, 1, &[0; 8], &mut out), 11);
    assert_eq!(rebuild(&desc, 1, 0, &[0; 16], &mut out), 11);
    assert_eq!(correct(&desc, &[0; 8], &[0; 8], &mut out), 11);
    assert_eq!(out, [0xC3; 8]);
}
