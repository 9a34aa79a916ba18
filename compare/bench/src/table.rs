//! Measuring two ways of doing one thing, and the table of what came out.

use std::io::{self, Write};
use std::ops::Range;
use std::time::{Duration, Instant};

/// Where tables are printed.
pub type Output<'a> = &'a mut dyn Write;

/// Does some work and leaves its results in a list of bytes.
pub type Pass<'a> = Box<dyn FnMut(&mut [u8]) + 'a>;

/// The ways of most tables: the archive's and the reference's.
pub const OURS_AND_RUST: [&str; 2] = ["ours", "rust"];

pub struct Table<'a> {
    pub title: String,
    /// What the two ways are called.
    pub ways: [&'a str; 2],
    /// The heading of the names.
    pub names: &'a str,
    /// What the times are given for.
    pub unit: &'a str,
    pub cases: Vec<Case<'a>>,
}

/// One line of a table: a pass done by the archive and the same pass done by the
/// reference, or by the archive in another way.
pub struct Case<'a> {
    pub name: String,
    /// How many units one pass does.
    pub count: usize,
    /// How many bytes of results one pass leaves.
    pub results: usize,
    /// Those of them that it must write; the others are zero before it.
    pub written: Range<usize>,
    /// The greatest ratio of the first to the second that is wanted.
    pub limit: Option<f64>,
    pub ours: Pass<'a>,
    pub other: Pass<'a>,
}

/// What a table found.
#[derive(Clone, Copy, Default)]
pub struct Verdict {
    /// Results differ.
    pub differ: bool,
    /// A ratio is over its limit.
    pub over: bool,
}

impl Verdict {
    pub fn and(self, other: Verdict) -> Verdict {
        Verdict {
            differ: self.differ || other.differ,
            over: self.over || other.over,
        }
    }
}

/// The best time of each way, and whether they ever gave different results.
struct Best {
    ours: Duration,
    other: Duration,
    differ: bool,
}

impl Best {
    const NONE: Best = Best {
        ours: Duration::MAX,
        other: Duration::MAX,
        differ: false,
    };

    fn ratio(&self) -> f64 {
        self.ours.as_secs_f64() / self.other.as_secs_f64()
    }
}

/// Measures all cases of a table in interleaved rounds and prints it.
pub fn measure(out: Output<'_>, rounds: usize, mut table: Table<'_>) -> io::Result<Verdict> {
    let bests = race(rounds, &mut table.cases);
    writeln!(out, "{}, best of {rounds}", table.title)?;
    print(out, &table, &bests)?;
    let verdicts = table.cases.iter().zip(&bests).map(|(case, best)| Verdict {
        differ: best.differ,
        over: over(case, best),
    });
    Ok(verdicts.fold(Verdict::default(), Verdict::and))
}

fn race(rounds: usize, cases: &mut [Case<'_>]) -> Vec<Best> {
    let mut bests: Vec<Best> = cases.iter().map(|_| Best::NONE).collect();
    let longest = cases.iter().map(|case| case.results).max().unwrap_or(0);
    let (mut ours, mut other) = (vec![0; longest], vec![0; longest]);
    for round in 0..rounds {
        for (case, best) in cases.iter_mut().zip(&mut bests) {
            let (ours, other) = (&mut ours[..case.results], &mut other[..case.results]);
            ours.fill(0);
            other.fill(0);
            // Different from each other, so that what both leave unwritten shows too.
            ours[case.written.clone()].fill(0x55);
            other[case.written.clone()].fill(0xAA);
            // Each way goes first in every other round.
            if round % 2 == 0 {
                timed(&mut case.ours, ours, &mut best.ours);
                timed(&mut case.other, other, &mut best.other);
            } else {
                timed(&mut case.other, other, &mut best.other);
                timed(&mut case.ours, ours, &mut best.ours);
            }
            best.differ |= ours != other;
        }
    }
    bests
}

fn timed(pass: &mut dyn FnMut(&mut [u8]), results: &mut [u8], best: &mut Duration) {
    let start = Instant::now();
    pass(results);
    *best = start.elapsed().min(*best);
}

fn print(out: Output<'_>, table: &Table<'_>, bests: &[Best]) -> io::Result<()> {
    let names = table.cases.iter().map(|case| case.name.len());
    let width = names.chain([table.names.len()]).max().unwrap_or(0);
    let [ours, other] = table.ways.map(|way| format!("{way} ns/{}", table.unit));
    writeln!(
        out,
        "{:>width$}  {ours}  {other}  ratio  limit",
        table.names
    )?;
    for (case, best) in table.cases.iter().zip(bests) {
        writeln!(
            out,
            "{:>width$}  {:w$.2}  {:v$.2}  {:5.2}  {:>5}{}{}",
            case.name,
            nanoseconds(best.ours, case.count),
            nanoseconds(best.other, case.count),
            best.ratio(),
            case.limit.map_or("-".into(), |limit| format!("{limit:.2}")),
            if over(case, best) { "  over" } else { "" },
            if best.differ { "  DIFFERENT" } else { "" },
            w = ours.len(),
            v = other.len(),
        )?;
    }
    writeln!(out)
}

fn over(case: &Case<'_>, best: &Best) -> bool {
    case.limit.is_some_and(|limit| best.ratio() > limit)
}

fn nanoseconds(time: Duration, count: usize) -> f64 {
    time.as_secs_f64() * 1e9 / count as f64
}
