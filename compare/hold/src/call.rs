//! A call of an exported function, and what it leaves.

use std::fmt;

use reference::Description;

#[derive(Clone, Copy, Debug, PartialEq, Eq)]
pub enum Function {
    Execute,
    Format,
    Fill,
    Scrub,
    Parity,
    Rebuild,
    Correct,
    Guard,
    GuardByDivision,
    Guards,
    List,
    Sense,
}

impl Function {
    pub const ALL: [Function; 12] = [
        Function::Execute,
        Function::Format,
        Function::Fill,
        Function::Scrub,
        Function::Parity,
        Function::Rebuild,
        Function::Correct,
        Function::Guard,
        Function::GuardByDivision,
        Function::Guards,
        Function::List,
        Function::Sense,
    ];

    pub fn name(self) -> &'static str {
        match self {
            Function::Execute => "execute",
            Function::Format => "format",
            Function::Fill => "fill",
            Function::Scrub => "scrub",
            Function::Parity => "parity",
            Function::Rebuild => "rebuild",
            Function::Correct => "correct",
            Function::Guard => "guard",
            Function::GuardByDivision => "guard_by_division",
            Function::Guards => "guards",
            Function::List => "list",
            Function::Sense => "sense",
        }
    }

    /// The answers that can be reached; none for a function that gives no answer
    /// number. No description reaches 14: a transfer has at most 65,536 blocks of
    /// 4,160 bytes.
    pub fn answers(self) -> &'static [u64] {
        match self {
            Function::Execute => &[0, 1, 2, 3, 4, 5, 6, 7, 8, 9, 10, 15],
            Function::Format => &[0, 6, 12],
            Function::Fill => &[0, 1, 2],
            Function::Scrub => &[0, 1, 2, 7],
            Function::Parity | Function::Rebuild | Function::Correct => &[0, 1, 11],
            Function::Guards => &[0, 4],
            Function::List => &[0, 1, 2, 13],
            Function::Guard | Function::GuardByDivision | Function::Sense => &[],
        }
    }

    /// How many places for numbers are lent.
    pub fn places(self) -> usize {
        match self {
            Function::Execute => 2,
            Function::Format => 1,
            Function::Scrub => 4,
            _ => 0,
        }
    }
}

/// What a function is called with: its numbers and the bytes of its slices, each
/// in the order of its declaration.
#[derive(Clone, Debug)]
pub struct Call {
    pub function: Function,
    pub numbers: Vec<u64>,
    pub lent: Vec<Vec<u8>>,
    /// A slice that is lent with so many zeros behind its bytes, if there is one. No
    /// memory holds them until they are touched, and none should be: the length says
    /// enough.
    pub zeros: Option<(usize, usize)>,
}

/// Numbers of bits that a length may be cut to by mistake.
pub const CUTS: [u32; 10] = [8, 10, 12, 15, 16, 17, 20, 24, 27, 32];

impl Call {
    pub fn new<const N: usize>(function: Function, numbers: &[u64], lent: [&[u8]; N]) -> Self {
        Call {
            function,
            numbers: numbers.to_vec(),
            lent: lent.map(<[u8]>::to_vec).into(),
            zeros: None,
        }
    }

    /// The call with each slice in turn too long: it has the right length only for
    /// who cuts that to some number of bits.
    pub fn each_cut(&self) -> impl Iterator<Item = Call> {
        let slices = 0..self.lent.len();
        let longer = slices.flat_map(|number| CUTS.map(|bits| (number, 1 << bits)));
        longer.map(|zeros| self.clone().with_zeros(zeros))
    }

    pub fn with_zeros(self, zeros: (usize, usize)) -> Self {
        Call {
            zeros: Some(zeros),
            ..self
        }
    }

    /// How many zeros are lent behind the bytes of a slice.
    pub fn behind(&self, number: usize) -> usize {
        match self.zeros {
            Some((slice, count)) if slice == number => count,
            _ => 0,
        }
    }

    /// A call whose first numbers are a description.
    pub fn described<const N: usize>(
        function: Function,
        desc: &Description,
        numbers: &[u64],
        lent: [&[u8]; N],
    ) -> Self {
        let first = [desc.p, desc.b, desc.e, desc.w, desc.n, desc.ato];
        Call::new(function, &[&first, numbers].concat(), lent)
    }
}

impl fmt::Display for Call {
    fn fmt(&self, f: &mut fmt::Formatter<'_>) -> fmt::Result {
        writeln!(f, "function {}", self.function.name())?;
        write!(f, "numbers {:X?}", self.numbers)?;
        for (number, bytes) in self.lent.iter().enumerate() {
            write!(f, "\nlent {number}: {}", Hex(bytes))?;
            if self.behind(number) > 0 {
                write!(f, " and {} zeros", self.behind(number))?;
            }
        }
        Ok(())
    }
}

/// What a call hands back and leaves.
#[derive(Clone, Debug, PartialEq, Eq)]
pub struct Left {
    pub returned: u64,
    pub places: Vec<u64>,
    pub lent: Vec<Vec<u8>>,
    /// Which lent bytes, and after them which places, have a changed fence.
    pub trespassed: Vec<usize>,
}

/// Bytes lent as C lends them.
#[derive(Clone, Copy, Debug)]
pub struct Lent {
    pub pointer: *mut u8,
    pub length: usize,
}

/// What is held against the reference.
pub trait Library {
    /// Calls a function with the numbers, slices and places of its declaration.
    ///
    /// # Safety
    /// Each pointer leads to as many bytes as its length says, and each place to a
    /// number; none overlaps another, and nothing else reads or writes them now.
    unsafe fn call(
        &self,
        function: Function,
        numbers: &[u64],
        lent: &[Lent],
        places: &[*mut u64],
    ) -> u64;
}

/// Bytes in hexadecimal, cut where they grow long.
pub struct Hex<'a>(pub &'a [u8]);

impl fmt::Display for Hex<'_> {
    fn fmt(&self, f: &mut fmt::Formatter<'_>) -> fmt::Result {
        const SHOWN: usize = 512;
        write!(f, "{} bytes ", self.0.len())?;
        for byte in self.0.iter().take(SHOWN) {
            write!(f, "{byte:02X}")?;
        }
        if self.0.len() > SHOWN {
            f.write_str("..")?;
        }
        Ok(())
    }
}
