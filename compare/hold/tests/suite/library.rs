//! Libraries made of the reference: an honest one, and ones with a fault.

use std::slice;

use hold::call::{Function, Lent, Library};
use hold::told::call_reference;

/// The reference behind the boundary.
pub struct Honest;

impl Library for Honest {
    unsafe fn call(
        &self,
        function: Function,
        numbers: &[u64],
        lent: &[Lent],
        places: &[*mut u64],
    ) -> u64 {
        // SAFETY, here and below: the caller's promise.
        let mut slices: Vec<_> = lent.iter().map(|&lent| unsafe { slice(lent) }).collect();
        let (returned, numbers, _) = call_reference(function, numbers, &mut slices);
        for (&place, &number) in places.iter().zip(&numbers) {
            unsafe { *place = number };
        }
        returned
    }
}

/// The bytes lent; none for a null pointer.
///
/// # Safety
/// The pointer leads to as many bytes as the length says, and nothing else reads or
/// writes them while the slice is used.
unsafe fn slice<'a>(lent: Lent) -> &'a mut [u8] {
    if lent.length == 0 {
        return &mut [];
    }
    unsafe { slice::from_raw_parts_mut(lent.pointer, lent.length) }
}

/// A call on its way through a library with a fault.
pub struct Passing<'a> {
    pub function: Function,
    pub numbers: Vec<u64>,
    pub lent: &'a [Lent],
    pub places: &'a [*mut u64],
}

impl Passing<'_> {
    /// What an honest library does with it.
    pub fn honest(&self) -> u64 {
        // SAFETY: the promise of the library's own caller.
        unsafe { Honest.call(self.function, &self.numbers, self.lent, self.places) }
    }

    /// The same with another slice in the place of a lent one.
    pub fn honest_with(&self, number: usize, slice: Lent) -> u64 {
        let mut lent = self.lent.to_vec();
        lent[number] = slice;
        // SAFETY: the promise of the library's own caller, and the test's.
        unsafe { Honest.call(self.function, &self.numbers, &lent, self.places) }
    }

    /// The same with other bytes.
    pub fn honest_with_bytes(&self, number: usize, bytes: &mut [u8]) -> u64 {
        let (pointer, length) = (bytes.as_mut_ptr(), bytes.len());
        self.honest_with(number, Lent { pointer, length })
    }

    pub fn bytes(&self, number: usize) -> &[u8] {
        // SAFETY: the promise of the library's own caller.
        unsafe { slice(self.lent[number]) }
    }

    /// Writes a byte of a lent slice.
    pub fn write(&self, number: usize, place: usize, byte: u8) {
        assert!(place < self.lent[number].length);
        // SAFETY: the place is within the slice.
        unsafe { *self.lent[number].pointer.add(place) = byte };
    }

    /// Reads a byte at a distance from the start of a lent slice, also outside it.
    pub fn peek(&self, number: usize, distance: isize) {
        let place = self.lent[number].pointer.wrapping_offset(distance);
        // SAFETY: none; a page that nobody may touch ends the program.
        unsafe { place.read_volatile() };
    }

    /// Turns over a bit at a distance from the start of a lent slice, also in the
    /// fence before or behind it.
    pub fn turn(&self, number: usize, distance: isize) {
        // SAFETY: the tests keep to the slice and the bytes beside it.
        unsafe { *self.lent[number].pointer.offset(distance) ^= 1 };
    }
}

/// A library whose calls go through a function.
pub struct Planted<F>(pub F);

impl<F: Fn(Passing<'_>) -> u64> Library for Planted<F> {
    unsafe fn call(
        &self,
        function: Function,
        numbers: &[u64],
        lent: &[Lent],
        places: &[*mut u64],
    ) -> u64 {
        (self.0)(Passing {
            function,
            numbers: numbers.to_vec(),
            lent,
            places,
        })
    }
}
