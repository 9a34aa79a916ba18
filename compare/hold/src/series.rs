//! Series of scrubs, each from where the last stopped. What a library finds in one is
//! held against what it finds in one call over all blocks, that against its own
//! listing, and what each of these scrubs leaves against what the reference leaves.

use reference::Description;

use crate::call::{Call, Left, Library};
use crate::compare::{Difference, Sides, ask};
use crate::fence::{Rooms, Way};
use crate::listings;
use crate::numbers::Numbers;
use crate::scrubs::{any_segment, scrub};
use crate::segment::{described_any, right, spoil_blocks};
use crate::told::tell;

/// A segment, and how it is scrubbed.
pub struct Series {
    desc: Description,
    segment: Vec<u8>,
    way: Way,
    /// The blocks that one call asks for: all, or more than there are.
    at_once: u64,
    /// The blocks that each call of the series asks for.
    steps: Vec<u64>,
}

impl Series {
    pub fn any(numbers: &mut Numbers) -> Self {
        // Some segments are too great for a record.
        let bytes = if numbers.once_in(256) {
            5_000_000
        } else {
            60_000
        };
        let (desc, segment) = any_segment(numbers, bytes);
        Series::over(desc, segment, any_steps, numbers)
    }

    /// One over so many small blocks, of which none, one, some or many are spoiled.
    pub fn of_count(n: u64, (p, e): (u64, u64), numbers: &mut Numbers) -> Self {
        let desc = described_any(p, 8, e, n, numbers);
        let mut segment = right(&desc, numbers);
        for _ in 0..numbers.pick(&[0, 1, n.div_ceil(64), n, n]) {
            spoil_blocks(&desc, &mut segment, numbers);
        }
        Series::over(desc, segment, any_split, numbers)
    }

    fn over(
        desc: Description,
        segment: Vec<u8>,
        steps: fn(u64, &mut Numbers) -> Vec<u64>,
        numbers: &mut Numbers,
    ) -> Self {
        Series {
            way: numbers.pick(&[Way::Fenced(3), Way::BehindPage, Way::BeforePage]),
            at_once: numbers.pick(&[desc.n, u64::MAX]),
            steps: steps(desc.n, numbers),
            desc,
            segment,
        }
    }

    /// Puts it to a library; how many scrubs and listings it took. Where the library
    /// parts from itself, that is the difference, also if it parts from the reference.
    pub fn hold(
        &self,
        library: &impl Library,
        rooms: &mut Rooms,
    ) -> Result<[u64; 2], Box<Difference>> {
        let mut asked = Asked {
            library,
            rooms,
            way: self.way,
            parted: None,
        };
        let all = scrub(&self.desc, &self.segment, 0, self.at_once);
        let at_once = asked.scrubbed(&all);
        let part = |sides, wanted: &Totals, got: &Totals| {
            let [wanted, got] = [wanted, got].map(|totals| totals.left(&all));
            Err(Difference::new(&all, self.way, sides, wanted, got))
        };

        let together = self.together(&all, &mut asked);
        if together != at_once {
            let sides = Sides::OneCallAndSeries(self.steps.clone());
            return part(sides, &at_once, &together);
        }
        let listing = listings::list_segment(&self.desc, &self.segment);
        if let Some(call) = &listing {
            let listed = listed(self.desc.n, &asked.left(call));
            if at_once != listed {
                return part(Sides::ListingAndOneCall, &listed, &at_once);
            }
        }
        match asked.parted {
            Some(difference) => Err(difference),
            None => Ok([1 + self.steps.len() as u64, listing.iter().len() as u64]),
        }
    }

    /// What the calls of the series find together.
    fn together(&self, all: &Call, asked: &mut Asked<'_, impl Library>) -> Totals {
        let mut totals = Totals::default();
        let mut call = all.clone();
        for &blocks in &self.steps {
            call.numbers[6..].copy_from_slice(&[totals.next, blocks]);
            totals.add(&asked.scrubbed(&call));
        }
        totals
    }
}

/// A library that is asked, and the first of its scrubs that parts from the reference.
struct Asked<'a, L> {
    library: &'a L,
    rooms: &'a mut Rooms,
    way: Way,
    parted: Option<Box<Difference>>,
}

impl<L: Library> Asked<'_, L> {
    /// What the library leaves.
    fn left(&mut self, call: &Call) -> Left {
        ask(self.library, call, self.rooms, self.way)
    }

    /// The numbers of a scrub. What it leaves is held against what the reference leaves.
    fn scrubbed(&mut self, call: &Call) -> Totals {
        let got = self.left(call);
        let wanted = tell(call).left;
        let totals = Totals::of(&got);
        if self.parted.is_none() && got != wanted {
            let sides = Sides::ReferenceAndLibrary;
            self.parted = Some(Difference::new(call, self.way, sides, wanted, got));
        }
        totals
    }
}

/// Numbers of blocks that lead from place 0 to the end, some of them 0 and some more
/// than are left.
fn any_steps(n: u64, numbers: &mut Numbers) -> Vec<u64> {
    let most = numbers.pick(&[1, 2, 16, n]).max(n / 64);
    let mut steps = Vec::new();
    let mut left = n;
    while left > 0 || numbers.once_in(4) {
        let blocks = match numbers.below(16) {
            0 | 1 => 0,
            2 => numbers.edge(),
            3 => numbers.beside(left),
            _ => 1 + numbers.below(most),
        };
        left = left.saturating_sub(blocks);
        steps.push(blocks);
    }
    steps
}

/// Numbers of blocks that lead from place 0 to the end by way of up to some hundred
/// places, two by two a few blocks from each other.
fn any_split(n: u64, numbers: &mut Numbers) -> Vec<u64> {
    let mut places = vec![0, n];
    for _ in 0..numbers.below(100) {
        let place = numbers.below(n + 1);
        places.extend([place, numbers.beside(place).min(n)]);
    }
    places.sort_unstable();
    places.windows(2).map(|two| two[1] - two[0]).collect()
}

/// The numbers that one scrub hands back, or some, each from where the last stopped,
/// together.
#[derive(Default, PartialEq, Eq)]
struct Totals {
    /// The first answer that is not good.
    answer: u64,
    next: u64,
    judged: u64,
    faults: u64,
    first_fault: u64,
}

impl Totals {
    fn of(left: &Left) -> Self {
        let [next, judged, faults, first_fault] = left.places[..] else {
            panic!("a scrub has four places")
        };
        Totals {
            answer: left.returned,
            next,
            judged,
            faults,
            first_fault,
        }
    }

    /// Adds those of the scrub that follows. The first fault is that of the first call
    /// with a count above 0.
    fn add(&mut self, more: &Totals) {
        if self.answer == 0 {
            self.answer = more.answer;
        }
        if self.faults == 0 && more.faults > 0 {
            self.first_fault = more.first_fault;
        }
        self.next = more.next;
        // The numbers of a wrong library may be any.
        self.judged = self.judged.wrapping_add(more.judged);
        self.faults = self.faults.wrapping_add(more.faults);
    }

    /// The same as one call over all leaves it.
    fn left(&self, all: &Call) -> Left {
        Left {
            returned: self.answer,
            places: vec![self.next, self.judged, self.faults, self.first_fault],
            lent: all.lent.clone(),
            trespassed: Vec::new(),
        }
    }
}

/// What a scrub over all blocks finds by the lines of a listing.
fn listed(n: u64, left: &Left) -> Totals {
    let room = &left.lent[1];
    let text = &room[..room.len().min(left.returned as usize)];
    let text = String::from_utf8_lossy(text);
    let mut addresses: Vec<u64> = text.lines().filter_map(faulty).collect();
    addresses.dedup();
    Totals {
        answer: 0,
        next: n,
        judged: n,
        faults: addresses.len() as u64,
        first_fault: addresses.first().copied().unwrap_or(0),
    }
}

/// The address in a line whose state is a fault.
fn faulty(line: &str) -> Option<u64> {
    let words: Vec<&str> = line.split(' ').collect();
    match words[..] {
        [address, .., "guard" | "ref"] => address.parse().ok(),
        _ => None,
    }
}
