//! The format choice, against the rows of table 9 of 002.

use reference::format_choice;

/// One row: SPT, PROTECT, FMTPINFO, usage (least and greatest), then the answer
/// and the type.
type Row = ((u64, u64), (u64, u64), (u64, u64), (u64, u64), (u64, u64));

const ROWS: [Row; 18] = [
    ((0, 7), (0, 0), (0, 0), (0, 0), (0, 0)),
    ((0, 7), (0, 0), (0, 0), (1, 7), (12, 0)),
    ((0, 7), (0, 0), (1, 1), (0, 7), (6, 0)),
    ((0, 7), (0, 0), (2, 3), (0, 7), (6, 0)),
    ((0, 7), (1, 1), (0, 0), (0, 0), (0, 0)),
    ((0, 7), (1, 1), (0, 0), (1, 7), (12, 0)),
    ((0, 7), (1, 1), (1, 1), (0, 7), (6, 0)),
    ((0, 1), (1, 1), (2, 2), (0, 0), (0, 1)),
    ((3, 3), (1, 1), (2, 2), (0, 0), (0, 1)),
    ((0, 1), (1, 1), (2, 2), (1, 7), (12, 0)),
    ((3, 3), (1, 1), (2, 2), (1, 7), (12, 0)),
    ((0, 0), (1, 1), (3, 3), (0, 7), (6, 0)),
    ((1, 1), (1, 1), (3, 3), (0, 0), (0, 2)),
    ((1, 1), (1, 1), (3, 3), (1, 7), (12, 0)),
    ((3, 3), (1, 1), (3, 3), (0, 0), (12, 0)),
    ((3, 3), (1, 1), (3, 3), (1, 1), (0, 3)),
    ((3, 3), (1, 1), (3, 3), (2, 7), (12, 0)),
    // Reserved in 002, refused here; SPT 2 and 4 to 7 with FMTPINFO 1xb.
    ((2, 2), (1, 1), (2, 3), (0, 7), (6, 0)),
];

#[test]
fn every_row() {
    let within = |value: u64, range: (u64, u64)| range.0 <= value && value <= range.1;
    for spt in 0..=7 {
        for protect in 0..=1 {
            for fmtpinfo in 0..=3 {
                for usage in 0..=7 {
                    let reserved = spt >= 4 && protect == 1 && fmtpinfo >= 2;
                    let mut rows = ROWS.iter().filter(|row| {
                        within(spt, row.0)
                            && within(protect, row.1)
                            && within(fmtpinfo, row.2)
                            && within(usage, row.3)
                    });
                    let wanted = if reserved {
                        (6, 0)
                    } else {
                        rows.next().expect("a row for every combination").4
                    };
                    assert_eq!(rows.next(), None, "two rows for one combination");
                    assert_eq!(format_choice(spt, protect, fmtpinfo, usage), wanted);
                }
            }
        }
    }
}

#[test]
fn outside_the_ranges() {
    for big in [8, 255, 256, 1 << 63, u64::MAX] {
        assert_eq!(format_choice(big, 1, 0, 0), (6, 0));
        assert_eq!(format_choice(1, 1, 0, big), (6, 0));
    }
    for protect in [2, 1 << 63, u64::MAX] {
        assert_eq!(format_choice(1, protect, 0, 0), (6, 0));
    }
    for fmtpinfo in [4, 8, 1 << 63, u64::MAX] {
        assert_eq!(format_choice(1, 1, fmtpinfo, 0), (6, 0));
        assert_eq!(format_choice(1, 1, fmtpinfo, 1), (6, 0));
    }
    // Outside comes before what 00b would say of the usage.
    assert_eq!(format_choice(8, 0, 0, 1), (6, 0));
}
