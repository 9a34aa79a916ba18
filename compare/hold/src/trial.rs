//! A run of calls: the systematic ones, part by part, and as many random calls and
//! series as wanted.

use crate::call::{Call, Function, Library};
use crate::compare::{Difference, compare};
use crate::fence::Rooms;
use crate::numbers::Numbers;
use crate::report::Tally;
use crate::segment::SHAPES;
use crate::series::Series;
use crate::{executes, formats, guards, listings, scrubs, stripes, watch};

/// Whether library and reference agreed.
pub type Held = Result<(), Box<Difference>>;

/// What takes the calls.
pub type Put<'a> = &'a mut dyn FnMut(Call) -> Held;

/// A part of the systematic calls.
pub type Part = fn(Put<'_>) -> Held;

/// Every limit, length, code, fault, difference, escape and lost part by itself, what
/// is refused in pairs, and great numbers. No part needs another, so that they can run
/// side by side: the longest come first.
pub const PARTS: [(&str, Part); 20] = [
    ("executes::large::most", executes::large::most),
    ("executes::large::each", executes::large::each),
    ("stripes::most", stripes::most),
    ("guards::large", guards::large),
    ("executes::each", executes::each),
    ("scrubs::most", scrubs::most),
    ("scrubs::large", scrubs::large),
    ("formats::large", formats::large),
    ("listings::large", listings::large),
    ("stripes::large", stripes::large),
    ("executes::order::each", executes::order::each),
    ("executes::differences::each", executes::differences::each),
    ("listings::each", listings::each),
    ("listings::pairs", listings::pairs),
    ("scrubs::each", scrubs::each),
    ("scrubs::pairs", scrubs::pairs),
    ("formats::each", formats::each),
    ("guards::each", guards::each),
    ("stripes::each", stripes::each),
    ("stripes::pairs", stripes::pairs),
];

/// A library on trial, and what was reached so far.
pub struct Trial<'a, L> {
    library: &'a L,
    rooms: Rooms,
    pub tally: Tally,
}

impl<'a, L: Library> Trial<'a, L> {
    pub fn new(library: &'a L) -> Self {
        Trial {
            library,
            rooms: Rooms::default(),
            tally: Tally::default(),
        }
    }

    pub fn put(&mut self, call: Call) -> Held {
        let function = call.function;
        let number = self.tally.inputs();
        watch::input(number);
        let answer = compare(self.library, call, &mut self.rooms, number as usize % 8)?;
        self.tally.note(function, answer);
        Ok(())
    }

    /// Calls from a seed, biased to the limits.
    pub fn random(&mut self, seed: u64, count: u64) -> Held {
        let mut numbers = Numbers::new(seed);
        for _ in 0..count {
            let call = any(&mut numbers);
            self.put(call)?;
        }
        Ok(())
    }

    /// Series of scrubs from a seed: so many over any segments, and some of each type
    /// and exponent over one block and over as many as there may be. Each is held
    /// against one call over all blocks, the listing and the reference.
    pub fn series(&mut self, seed: u64, count: u64) -> Held {
        let mut numbers = Numbers::new(seed);
        for _ in 0..count {
            self.put_series(&Series::any(&mut numbers))?;
        }
        for (n, times) in [(1, 20), (65_536, 2)] {
            for shape in SHAPES {
                for _ in 0..times {
                    self.put_series(&Series::of_count(n, shape, &mut numbers))?;
                }
            }
        }
        Ok(())
    }

    fn put_series(&mut self, series: &Series) -> Held {
        watch::input(self.tally.inputs());
        let taken = series.hold(self.library, &mut self.rooms)?;
        for (function, times) in [Function::Scrub, Function::List].into_iter().zip(taken) {
            (0..times).for_each(|_| self.tally.note(function, None));
        }
        Ok(())
    }
}

fn any(numbers: &mut Numbers) -> Call {
    match numbers.below(22) {
        0 | 1 => guards::any(numbers),
        2 => formats::any(numbers),
        3..=5 => stripes::any(numbers),
        6..=8 => listings::any(numbers),
        9 | 10 => scrubs::any(numbers),
        _ => executes::any(numbers),
    }
}
