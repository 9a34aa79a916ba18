//! The listing program.

use reference::Description;

use crate::support::*;

#[test]
fn the_example() {
    let input = bytes(concat!(
        "0000003F 01 01 00 0008 0000000000000007 0003",
        "00000000000000018BB7000000000007",
        "00000000000000029CD9000000000007",
        "00000000000000030000FFFF00000000",
    ));
    assert_eq!(input, record(&M, &m()));
    assert_eq!(
        text(&input),
        "lba interval guard app ref state\n\
         7 0 8bb7 0000 00000007 ok\n\
         8 0 9cd9 0000 00000007 ref\n\
         9 0 0000 ffff 00000000 skipped\n\
         intervals 3 faults 1 skipped 1\n"
    );
}

#[test]
fn bad_records() {
    let good = record(&M, &m());
    for length in 0..good.len() {
        assert_eq!(text(&good[..length]), "refused 13\n", "{length} bytes");
    }
    let mut longer = good.clone();
    longer.push(0);
    assert_eq!(text(&longer), "refused 13\n");
    for version in (0..=255).filter(|&version| version != 1) {
        let mut other = good.clone();
        other[4] = version;
        assert_eq!(text(&other), "refused 13\n");
    }
    for length in 0..15u32 {
        let mut short = length.to_be_bytes().to_vec();
        short.extend(vec![1; length as usize]);
        assert_eq!(text(&short), "refused 13\n", "L {length}");
    }
    let mut endless = vec![0xFF; 4];
    endless.extend(&good[4..]);
    assert_eq!(text(&endless), "refused 13\n");
}

#[test]
fn the_limit_of_a_record() {
    // 65,532 is the greatest L: 15 bytes and 65,517 of segment, which no
    // segment has, since every one is a multiple of 8.
    let mut input = record(&M, &vec![0; 65_517]);
    assert_eq!(input[..4], [0x00, 0x00, 0xFF, 0xFC]);
    assert_eq!(text(&input), "refused 2\n");
    input[5] = 9;
    assert_eq!(text(&input), "refused 1\n");
    let input = record(&M, &vec![0; 65_518]);
    assert_eq!(text(&input), "refused 13\n");
    // The greatest segment that fits: 8,189 blocks of 8 bytes, type 0.
    let desc = describe(0, 8, 0, 0, 8_189, 0);
    let input = record(&desc, &vec![0xC3; 8 * 8_189]);
    assert_eq!(
        text(&input),
        "lba interval guard app ref state\nintervals 0 faults 0 skipped 0\n"
    );
}

#[test]
fn bad_descriptions_and_lengths() {
    for (at, value) in [(5, 4), (6, 1), (8, 9), (7, 0x10), (9, 0x80), (17, 0)] {
        let mut input = record(&M, &m());
        input[at] = value;
        if at == 17 {
            input[18] = 0;
        }
        assert_eq!(text(&input), "refused 1\n", "byte {at}");
    }
    for n in [1, 2, 4, 65_535] {
        let input = record(&Description { n, ..M }, &m());
        assert_eq!(text(&input), "refused 2\n");
    }
    assert_eq!(text(&record(&M, &[])), "refused 2\n");
    // A bad description comes before a wrong length.
    assert_eq!(
        text(&record(&Description { n: 0, ..M }, &[])),
        "refused 1\n"
    );
}

#[test]
fn the_escape_skips_the_whole_block() {
    let desc = describe(2, 8, 1, 1 << 40, 2, 0);
    let mut segment = interval(&[1, 2, 3, 4], 0x0000, 7);
    segment.extend(interval(&[5, 6, 7, 8], 0xFFFF, 0));
    segment.extend(interval(&[0, 0, 0, 1], 0xFFFE, 0));
    segment.extend(bytes("00000001 0000 abcd 12345678"));
    assert_eq!(
        text(&record(&desc, &segment)),
        format!(
            "lba interval guard app ref state\n\
             1099511627776 0 {:04x} 0000 00000007 skipped\n\
             1099511627776 1 {:04x} ffff 00000000 skipped\n\
             1099511627777 0 8bb7 fffe 00000000 ok\n\
             1099511627777 1 0000 abcd 12345678 guard\n\
             intervals 4 faults 1 skipped 2\n",
            reference::guard(&[1, 2, 3, 4]),
            reference::guard(&[5, 6, 7, 8]),
        )
    );
}

#[test]
fn the_escape_of_type_3_needs_both_tags() {
    let desc = describe(3, 8, 0, 0, 3, 0);
    let data = [0, 0, 0, 0, 0, 0, 0, 1];
    let mut segment = interval(&data, 0xFFFF, 0xFFFF_FFFE);
    segment.extend(interval(&data, 0xFFFF, 0xFFFF_FFFF));
    segment.extend(interval(&data, 0xFFFE, 0xFFFF_FFFF));
    assert_eq!(
        text(&record(&desc, &segment)),
        "lba interval guard app ref state\n\
         0 0 8bb7 ffff fffffffe ok\n\
         1 0 8bb7 ffff ffffffff skipped\n\
         2 0 8bb7 fffe ffffffff ok\n\
         intervals 3 faults 0 skipped 1\n"
    );
}

#[test]
fn the_reference_follows_the_address_past_2_to_the_32() {
    let desc = describe(1, 8, 0, 0xFFFF_FFFF, 2, 0);
    let segment = build(&desc, |block, _| {
        (0, 0xFFFF_FFFFu32.wrapping_add(block as u32))
    });
    assert!(text(&record(&desc, &segment)).ends_with("intervals 2 faults 0 skipped 0\n"));
    let last = describe(1, 8, 0, (1 << 63) - 1, 1, 0);
    let segment = interval(&[0; 8], 0, 0xFFFF_FFFF);
    assert_eq!(
        text(&record(&last, &segment)),
        "lba interval guard app ref state\n\
         9223372036854775807 0 0000 0000 ffffffff ok\n\
         intervals 1 faults 0 skipped 0\n"
    );
}

#[test]
fn guard_comes_before_ref() {
    let segment = bytes("0000000000000001 8BB6 0000 00000000");
    let desc = Description { n: 1, ..M };
    assert!(text(&record(&desc, &segment)).contains("7 0 8bb6 0000 00000000 guard\n"));
}
