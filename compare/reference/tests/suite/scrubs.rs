//! Scrubbing a few blocks at a time.

use reference::{Description, Scrubbed, guard_by_division, scrub};

use crate::descriptions::bad;
use crate::support::*;

/// What a good call hands back: the new place, the blocks judged, how many had a
/// fault, and the address of the first.
fn good(next: u64, judged: u64, faults: u64, first_fault: u64) -> Scrubbed {
    Scrubbed {
        answer: 0,
        next,
        judged,
        faults,
        first_fault,
    }
}

/// What a refused call hands back.
fn refused(answer: u64, place: u64) -> Scrubbed {
    Scrubbed {
        answer,
        ..good(place, 0, 0, 0)
    }
}

/// A segment in which every interval is right.
fn right(desc: &Description) -> Vec<u8> {
    build(desc, |block, inside| (0, (desc.w + block + inside) as u32))
}

/// How many blocks of a right segment have a fault, and the first of them, once
/// these bytes have a wrong bit.
fn spoiled(desc: &Description, bytes: &[usize]) -> (u64, u64) {
    let mut segment = right(desc);
    for &at in bytes {
        segment[at] ^= 1;
    }
    over_all(desc, &segment)
}

/// What one call over all finds.
fn over_all(desc: &Description, segment: &[u8]) -> (u64, u64) {
    let all = scrub(desc, segment, 0, desc.n);
    assert_eq!(all, good(desc.n, desc.n, all.faults, all.first_fault));
    (all.faults, all.first_fault)
}

/// Each type with each exponent that it may have.
fn shapes() -> impl Iterator<Item = (u64, u64)> {
    (0..4).flat_map(|p| (0..=if p < 2 { 0 } else { 3 }).map(move |e| (p, e)))
}

#[test]
fn segment_m() {
    // 7 is right, 8 has the reference tag of 7, 9 has the escape.
    for (place, blocks, wanted) in [
        (0, 3, good(3, 3, 1, 8)),
        (0, 0, good(0, 0, 0, 0)),
        (0, 1, good(1, 1, 0, 0)),
        (0, 2, good(2, 2, 1, 8)),
        (0, 4, good(3, 3, 1, 8)),
        (1, 0, good(1, 0, 0, 0)),
        (1, 1, good(2, 1, 1, 8)),
        (1, 2, good(3, 2, 1, 8)),
        (1, 3, good(3, 2, 1, 8)),
        (2, 1, good(3, 1, 0, 0)),
        (2, 2, good(3, 1, 0, 0)),
        (3, 0, good(3, 0, 0, 0)),
        (3, 1, good(3, 0, 0, 0)),
        (4, 0, refused(7, 4)),
        (4, 1, refused(7, 4)),
    ] {
        assert_eq!(scrub(&M, &m(), place, blocks), wanted, "{place} {blocks}");
        let ato = Description { ato: 1, ..M };
        assert_eq!(scrub(&ato, &m(), place, blocks), wanted, "{place} {blocks}");
    }
}

const FAR: [u64; 6] = [4, 5, 1 << 16, 1 << 32, 1 << 63, u64::MAX];

#[test]
fn refusals_and_their_order() {
    let m = &m()[..];
    let longer = [m, &[0]].concat();
    for place in [0, 1, 3].into_iter().chain(FAR) {
        for blocks in [0, 1, 3, u64::MAX] {
            for desc in bad() {
                for segment in [m, &m[1..], &longer, &[]] {
                    assert_eq!(scrub(&desc, segment, place, blocks), refused(1, place));
                }
            }
            for segment in [&m[1..], &m[..32], &longer, &[]] {
                assert_eq!(scrub(&M, segment, place, blocks), refused(2, place));
            }
            let beyond = scrub(&M, m, place, blocks) == refused(7, place);
            assert_eq!(beyond, place > 3, "{place}");
        }
    }
}

#[test]
fn place_and_blocks_at_their_limits() {
    for (p, e) in shapes() {
        for n in [1, 2, 3, 65_536] {
            let desc = describe(p, 8, e, 5, n, 0);
            let mut segment = right(&desc);
            segment[0] ^= 1;
            let last = segment.len() - segment.len() / n as usize;
            segment[last] ^= 2;
            for place in [0, 1, n / 2, n - 1, n]
                .into_iter()
                .filter(|place| *place <= n)
            {
                let left = n - place;
                let about = [left.saturating_sub(1), left, left + 1];
                // The last two pass 2^64 with the place.
                let far = [0, 1, 1 << 32, u64::MAX - place, u64::MAX];
                for blocks in about.into_iter().chain(far) {
                    let judged = if blocks < left { blocks } else { left };
                    let first = p != 0 && place == 0 && judged > 0;
                    let second = p != 0 && n > 1 && judged > 0 && place + judged == n;
                    let address = match (first, second) {
                        (true, _) => 5,
                        (false, true) => 5 + n - 1,
                        (false, false) => 0,
                    };
                    let faults = u64::from(first) + u64::from(second);
                    assert_eq!(
                        scrub(&desc, &segment, place, blocks),
                        good(place + judged, judged, faults, address),
                        "{desc:?}: {blocks} from {place}"
                    );
                }
            }
            for place in [n + 1, n + 2, n + (1 << 16), n + (1 << 32), u64::MAX] {
                assert_eq!(scrub(&desc, &segment, place, 1), refused(7, place));
            }
        }
    }
}

#[test]
fn each_field_of_each_type() {
    for (p, e) in shapes() {
        let desc = describe(p, 16, e, 70, 3, 0);
        let stored = desc.stored_block().unwrap() as usize;
        assert_eq!(over_all(&desc, &right(&desc)), (0, 0), "{desc:?}");
        for at in 0..3 * stored {
            let data = 16 >> e;
            // The data, the guard, the application tag, the reference tag.
            let wrong = match (p, at % (stored >> e)) {
                (0, _) => false,
                (_, inside) if inside < data + 2 => true,
                (_, inside) if inside < data + 4 => false,
                _ => p == 1,
            };
            let address = 70 + (at / stored) as u64;
            let wanted = if wrong { (1, address) } else { (0, 0) };
            assert_eq!(spoiled(&desc, &[at]), wanted, "{desc:?}: byte {at}");
        }
    }
}

#[test]
fn a_block_counts_once_and_the_first_is_named() {
    let single = describe(1, 8, 0, 70, 5, 0);
    // The guard and the reference tag of one block.
    assert_eq!(spoiled(&single, &[16 + 8, 16 + 15]), (1, 71));
    assert_eq!(spoiled(&single, &[0, 32, 64]), (3, 70));
    assert_eq!(spoiled(&single, &[64, 16]), (2, 71));
    for p in [2, 3] {
        // Two, four and eight intervals to a block.
        for (e, step) in [(1, 20), (2, 14), (3, 11)] {
            let desc = describe(p, 24, e, 70, 3, 0);
            let all: Vec<usize> = (0..3 << e).map(|place| place * step).collect();
            let each = 1 << e;
            assert_eq!(spoiled(&desc, &all), (3, 70));
            assert_eq!(spoiled(&desc, &all[..each]), (1, 70));
            assert_eq!(spoiled(&desc, &all[each - 1..=each]), (2, 70));
            assert_eq!(spoiled(&desc, &all[each + 1..]), (2, 71));
            assert_eq!(spoiled(&desc, &all[2 * each..]), (1, 72));
        }
    }
}

/// Blocks of one type with a wrong guard in every interval, save that one has these
/// tags: whether any block has a fault. It is the same for each interval.
fn silenced(p: u64, e: u64, application: u16, reference: u32) -> bool {
    let desc = describe(p, 8, e, 1, 3, 0);
    let intervals = 1 << e;
    let silenced = |marked: (u64, u64)| {
        let mut segment = build(&desc, |block, inside| {
            if (block, inside) == marked {
                (application, reference)
            } else {
                (0xFFFE, (1 + block) as u32)
            }
        });
        let step = segment.len() / (3 * intervals as usize);
        for interval in segment.chunks_exact_mut(step) {
            interval[0] ^= 1;
        }
        let found = over_all(&desc, &segment);
        // The others have theirs whatever is in this one.
        let first = if marked.0 == 0 { 2 } else { 1 };
        assert!([(3, 1), (2, first)].contains(&found), "{found:?}");
        found.0 == 2
    };
    let marked = (0..3).flat_map(|block| (0..intervals).map(move |inside| (block, inside)));
    let mut all = marked.map(silenced);
    let one = all.next().expect("an interval");
    assert!(all.all(|other| other == one));
    one
}

#[test]
fn the_escape_of_each_type() {
    for (p, e) in shapes().filter(|(p, _)| *p != 0) {
        assert!(silenced(p, e, 0xFFFF, 0xFFFF_FFFF), "{p} {e}");
        assert_eq!(silenced(p, e, 0xFFFF, 0x0000_0002), p != 3, "{p} {e}");
        for bit in 0..16 {
            assert!(!silenced(p, e, 0xFFFF ^ 1 << bit, 0xFFFF_FFFF), "{p} {e}");
        }
        for bit in 0..32 {
            assert_eq!(silenced(p, e, 0xFFFF, !(1 << bit)), p != 3, "{p} {e}");
        }
    }
    // A block of type 0 has no tags: what looks like them are data.
    let desc = describe(0, 16, 0, 0, 2, 0);
    assert_eq!(over_all(&desc, &[0xFF; 32]), (0, 0));
}

#[test]
fn a_fresh_segment_is_skipped_whole() {
    for (p, e) in shapes() {
        let desc = describe(p, 8, e, 9, 4, 1);
        let mut segment = vec![0; desc.segment_length().unwrap() as usize];
        assert_eq!(reference::fill(&desc, &mut segment), 0);
        segment[0] ^= 1;
        assert_eq!(over_all(&desc, &segment), (0, 0));
    }
}

#[test]
fn addresses_from_0_to_the_last() {
    // With W 0 the count alone tells of a fault in the first block.
    let desc = describe(1, 8, 0, 0, 2, 0);
    assert_eq!(spoiled(&desc, &[]), (0, 0));
    assert_eq!(spoiled(&desc, &[0]), (1, 0));
    assert_eq!(spoiled(&desc, &[0, 16]), (2, 0));
    assert_eq!(spoiled(&desc, &[16]), (1, 1));
    for w in [(1 << 32) - 2, (1 << 32) - 1, 1 << 32, (1 << 63) - 3] {
        let desc = describe(1, 8, 0, w, 3, 0);
        for block in 0..3 {
            // In the highest byte of the reference tag.
            let found = spoiled(&desc, &[16 * block + 12]);
            assert_eq!(found, (1, w + block as u64));
        }
    }
    // Tags that go on past four bytes are wrong in type 1, and in no other.
    let past = |p| {
        let desc = describe(p, 8, 0, (1 << 32) - 1, 2, 0);
        over_all(&desc, &build(&desc, |_, _| (0, 0xFFFF_FFFF)))
    };
    assert_eq!(past(1), (1, 1 << 32));
    assert_eq!(past(2), (0, 0));
    assert_eq!(past(3), (0, 0));
}

/// A description with few blocks, and blocks of which some are wrong.
fn any(numbers: &mut Numbers) -> (Description, Vec<u8>) {
    let shapes: Vec<_> = shapes().collect();
    let (p, e) = numbers.pick(&shapes);
    let n = 1 + numbers.below(12);
    let w = numbers.pick(&[0, 7, (1 << 32) - 5, (1 << 63) - 12]);
    let desc = describe(p, numbers.pick(&[8, 16, 24, 64]), e, w, n, numbers.below(2));
    let mut segment = right(&desc);
    let step = segment.len() / (n << e) as usize;
    for interval in segment.chunks_exact_mut(step) {
        match numbers.below(8) {
            0 => interval[numbers.below(step as u64) as usize] ^= 1 << numbers.below(8),
            1 => interval[step - 6..step - 4].fill(0xFF),
            2 => interval[step - 6..].fill(0xFF),
            _ => {}
        }
    }
    (desc, segment)
}

/// How many blocks have a fault and the address of the first, told by the guard's
/// other way.
fn told(desc: &Description, segment: &[u8]) -> (u64, u64) {
    let stored = desc.stored_block().unwrap() as usize;
    let step = stored >> desc.e;
    let mut addresses = Vec::new();
    for (block, address) in segment.chunks(stored).zip(desc.w..) {
        let mut wrong = false;
        let mut escaped = desc.p == 0;
        for interval in block.chunks(step) {
            let (data, fields) = interval.split_at(step - 8);
            wrong |= fields[..2] != guard_by_division(data).to_be_bytes();
            wrong |= desc.p == 1 && fields[4..] != address.to_be_bytes()[4..];
            escaped |= fields[2..4] == [0xFF; 2] && (desc.p < 3 || fields[4..] == [0xFF; 4]);
        }
        if wrong && !escaped {
            addresses.push(address);
        }
    }
    let first = addresses.first().copied().unwrap_or(0);
    (addresses.len() as u64, first)
}

/// The same by the lines of a listing.
fn listed(desc: &Description, segment: &[u8]) -> (u64, u64) {
    let text = text(&record(desc, segment));
    let faulty = text.lines().filter_map(|line| {
        let words: Vec<&str> = line.split(' ').collect();
        let [address, _, _, _, _, "guard" | "ref"] = words[..] else {
            return None;
        };
        Some(address.parse().expect("an address"))
    });
    let mut addresses: Vec<u64> = faulty.collect();
    addresses.dedup();
    let first = addresses.first().copied().unwrap_or(0);
    (addresses.len() as u64, first)
}

#[test]
fn told_another_way_and_beside_the_listing() {
    let mut numbers = Numbers(41);
    let mut seen = [0; 3];
    for _ in 0..4_000 {
        let (desc, segment) = any(&mut numbers);
        let found = over_all(&desc, &segment);
        assert_eq!(found, told(&desc, &segment), "{desc:?}");
        assert_eq!(found, listed(&desc, &segment), "{desc:?}");
        seen[found.0.min(2) as usize] += 1;
    }
    assert!(seen.iter().all(|&times| times > 400), "{seen:?}");
}

#[test]
fn any_series_is_as_one_call() {
    let mut numbers = Numbers(42);
    for _ in 0..4_000 {
        let (desc, segment) = any(&mut numbers);
        let (mut place, mut faults, mut first) = (0, 0, 0);
        while place < desc.n || numbers.once_in(3) {
            let blocks = match numbers.below(8) {
                0 => 0,
                1 => numbers.next(),
                _ => 1 + numbers.below(4),
            };
            let step = scrub(&desc, &segment, place, blocks);
            assert_eq!(step.answer, 0);
            assert_eq!(step.judged, step.next - place);
            assert_eq!(step.judged, blocks.min(desc.n - place));
            if faults == 0 {
                first = step.first_fault;
            }
            faults += step.faults;
            place = step.next;
        }
        assert_eq!(place, desc.n);
        assert_eq!((faults, first), over_all(&desc, &segment), "{desc:?}");
    }
}
