//! One call put to a library and to the reference.

use std::fmt;

use crate::call::{Call, Hex, Left, Library};
use crate::fence::{Places, Room, Rooms, Way};
use crate::told::{Told, tell};
use crate::watch;

/// A call on which two sides part.
#[derive(Debug)]
pub struct Difference {
    pub call: Call,
    pub way: Way,
    pub sides: Sides,
    pub wanted: Left,
    pub got: Left,
}

impl Difference {
    pub fn new(call: &Call, way: Way, sides: Sides, wanted: Left, got: Left) -> Box<Self> {
        Box::new(Difference {
            call: call.clone(),
            way,
            sides,
            wanted,
            got,
        })
    }
}

/// Who says what is wanted, and who has something else.
#[derive(Clone, Debug, PartialEq, Eq)]
pub enum Sides {
    ReferenceAndLibrary,
    /// The library's scrub over all blocks, and a series of them with these numbers of
    /// blocks.
    OneCallAndSeries(Vec<u64>),
    /// The library's listing, and its scrub over all blocks.
    ListingAndOneCall,
}

impl Sides {
    fn names(&self) -> [&'static str; 2] {
        match self {
            Sides::ReferenceAndLibrary => ["reference", "library"],
            Sides::OneCallAndSeries(_) => ["one call", "series"],
            Sides::ListingAndOneCall => ["listing", "one call"],
        }
    }
}

/// The most bytes that are also lent between two fences.
const LONG: usize = 1 << 20;

/// Puts a call to both, to the library in each way that slices are lent; the answer
/// number if it gives one.
pub fn compare(
    library: &impl Library,
    call: Call,
    rooms: &mut Rooms,
    skew: usize,
) -> Result<Option<u64>, Box<Difference>> {
    let Told { left, answer } = tell(&call);
    // What a word's boundary may change shows in short calls.
    let long = call.lent.iter().map(Vec::len).sum::<usize>() > LONG;
    let ways = [Way::Fenced(skew), Way::BehindPage, Way::BeforePage];
    for &way in &ways[usize::from(long)..] {
        let rooms = rooms.put(&call, way);
        let run = || run(library, &call, &left, rooms);
        if let Err(got) = watch::over(&call, way, run) {
            let sides = Sides::ReferenceAndLibrary;
            return Err(Difference::new(&call, way, sides, left, got));
        }
    }
    rooms.clear();
    Ok(answer)
}

/// Calls the library alone: what it leaves.
pub fn ask(library: &impl Library, call: &Call, rooms: &mut Rooms, way: Way) -> Left {
    let rooms = rooms.put(call, way);
    let handed = watch::over(call, way, || hand(library, call, rooms));
    handed.with_bytes(rooms)
}

/// Calls the library with the copies in the rooms; an error is what it leaves
/// where that is not what is wanted.
fn run(library: &impl Library, call: &Call, wanted: &Left, rooms: &mut [Room]) -> Result<(), Left> {
    let handed = hand(library, call, rooms);
    let Handed {
        returned,
        places,
        trespassed,
    } = &handed;
    if (returned, places, trespassed) == (&wanted.returned, &wanted.places, &wanted.trespassed)
        && rooms.iter().map(Room::bytes).eq(&wanted.lent)
    {
        return Ok(());
    }
    Err(handed.with_bytes(rooms))
}

/// What a call leaves but for the lent bytes.
struct Handed {
    returned: u64,
    places: Vec<u64>,
    trespassed: Vec<usize>,
}

impl Handed {
    fn with_bytes(self, rooms: &[Room]) -> Left {
        Left {
            returned: self.returned,
            places: self.places,
            lent: rooms.iter().map(|room| room.bytes().to_vec()).collect(),
            trespassed: self.trespassed,
        }
    }
}

fn hand(library: &impl Library, call: &Call, rooms: &mut [Room]) -> Handed {
    let mut places = Places::new(call.function.places());
    let lent: Vec<_> = rooms.iter_mut().map(Room::lend).collect();
    let row = places.lend();
    // SAFETY: each slice and each place is a part of its own of memory that only
    // this function knows and that stays where it is until after the call.
    let returned = unsafe { library.call(call.function, &call.numbers, &lent, &row) };
    let standing = rooms.iter().map(Room::stands).chain([places.stand()]);
    let trespassed = standing
        .enumerate()
        .filter_map(|(number, stands)| (!stands).then_some(number))
        .collect();
    Handed {
        returned,
        places: places.numbers(),
        trespassed,
    }
}

impl fmt::Display for Difference {
    fn fmt(&self, f: &mut fmt::Formatter<'_>) -> fmt::Result {
        writeln!(f, "{}", self.call)?;
        writeln!(f, "lent {}", self.way)?;
        if let Sides::OneCallAndSeries(steps) = &self.sides {
            writeln!(f, "a series of {steps:X?} blocks")?;
        }
        let [wants, has] = self.sides.names();
        writeln!(f, "{wants}:")?;
        self.wanted.show(&self.call, f)?;
        writeln!(f, "{has}:")?;
        self.got.show(&self.call, f)?;
        for (number, (wanted, got)) in self.wanted.lent.iter().zip(&self.got.lent).enumerate() {
            if let Some(at) = wanted.iter().zip(got).position(|(a, b)| a != b) {
                let (wanted, got) = (Hex(&wanted[at..]), Hex(&got[at..]));
                writeln!(f, "lent {number} parts at byte {at}:")?;
                writeln!(f, "  {wants:<9} {wanted}\n  {has:<9} {got}")?;
            }
        }
        Ok(())
    }
}

impl Left {
    fn show(&self, call: &Call, f: &mut fmt::Formatter<'_>) -> fmt::Result {
        writeln!(f, "  returned {}, places {:?}", self.returned, self.places)?;
        for (number, (before, after)) in call.lent.iter().zip(&self.lent).enumerate() {
            let what = if before == after {
                "as it was"
            } else {
                "changed"
            };
            writeln!(f, "  lent {number}: {what}, {}", Hex(after))?;
        }
        for number in &self.trespassed {
            writeln!(f, "  wrote outside lent {number}")?;
        }
        Ok(())
    }
}
