//! Parts of the systematic calls and random calls, side by side.

use std::fmt;
use std::num::NonZero;
use std::sync::OnceLock;
use std::sync::atomic::{AtomicUsize, Ordering};
use std::thread::{self, available_parallelism};

use crate::call::Library;
use crate::compare::Difference;
use crate::report::Tally;
use crate::trial::{PARTS, Part, Trial};
use crate::watch;

/// Calls that follow each other on one thread.
#[derive(Clone, Copy, Debug)]
pub enum Run {
    Part(&'static str, Part),
    Random { seed: u64, count: u64 },
    Series { seed: u64, count: u64 },
}

impl fmt::Display for Run {
    fn fmt(&self, f: &mut fmt::Formatter<'_>) -> fmt::Result {
        match self {
            Run::Part(name, _) => write!(f, "{name}"),
            Run::Random { seed, .. } => write!(f, "seed {seed}"),
            Run::Series { seed, .. } => write!(f, "series of seed {seed}"),
        }
    }
}

/// Where library and reference part, or the library from itself: on which call of which
/// run, counted from 0. In a series it is the first call of the series.
#[derive(Debug)]
pub struct Parted {
    pub run: Run,
    pub number: u64,
    pub difference: Box<Difference>,
}

/// Every part of the systematic calls, so many random ones, a series for every twenty of
/// those, and the series over one block and over as many as there may be.
pub fn all(seed: u64, count: u64) -> Vec<Run> {
    let parts = PARTS.map(|(name, part)| Run::Part(name, part));
    let random = Run::Random { seed, count };
    let count = count / 20;
    let series = Run::Series { seed, count };
    parts.into_iter().chain([random, series]).collect()
}

/// Runs all of these, on as many threads as the machine has: what was reached in all,
/// or the difference in the first run that has one. After a difference none is begun;
/// those before it have been, and end.
///
/// # Errors
/// If library and reference part, or the library from itself.
pub fn side_by_side(library: &(impl Library + Sync), runs: &[Run]) -> Result<Tally, Parted> {
    let next = AtomicUsize::new(0);
    let results: Vec<OnceLock<_>> = runs.iter().map(|_| OnceLock::new()).collect();
    let work = || {
        loop {
            let number = next.fetch_add(1, Ordering::Relaxed);
            let Some(&run) = runs.get(number) else { return };
            let result = results[number].get_or_init(|| one(library, run));
            if result.is_err() {
                next.store(runs.len(), Ordering::Relaxed);
            }
        }
    };
    let threads = available_parallelism().map_or(1, NonZero::get);
    thread::scope(|scope| (0..threads).for_each(|_| drop(scope.spawn(work))));
    let mut tally = Tally::default();
    for result in results.into_iter().filter_map(OnceLock::into_inner) {
        tally.add(&result?);
    }
    Ok(tally)
}

fn one(library: &impl Library, run: Run) -> Result<Tally, Parted> {
    watch::install(run);
    let mut trial = Trial::new(library);
    let held = match run {
        Run::Part(_, part) => part(&mut |call| trial.put(call)),
        Run::Random { seed, count } => trial.random(seed, count),
        Run::Series { seed, count } => trial.series(seed, count),
    };
    match held {
        Ok(()) => Ok(trial.tally),
        Err(difference) => Err(Parted {
            run,
            number: trial.tally.inputs(),
            difference,
        }),
    }
}
