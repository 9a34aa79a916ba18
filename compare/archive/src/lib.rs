//! The static archive's functions: as C declares them, and on slices and the
//! reference's description, so that both take the same input.

use std::mem::MaybeUninit;

use reference::{Description, Outcome, Scrubbed};

/// The declarations. Every slice is a pointer and a length; whatever is only
/// read has a `const` pointer.
pub mod c {
    unsafe extern "C" {
        pub fn lamptassel_execute(
            kind: u64,
            block: u64,
            exponent: u64,
            first: u64,
            count: u64,
            ato: u64,
            segment: *mut u8,
            segment_length: usize,
            command: *const u8,
            command_length: usize,
            buffer: *mut u8,
            buffer_length: usize,
            address: *mut u64,
            place: *mut u64,
        ) -> u64;
        pub fn lamptassel_format_choice(
            spt: u64,
            protect: u64,
            fmtpinfo: u64,
            usage: u64,
            kind: *mut u64,
        ) -> u64;
        pub fn lamptassel_fill(
            kind: u64,
            block: u64,
            exponent: u64,
            first: u64,
            count: u64,
            ato: u64,
            segment: *mut u8,
            segment_length: usize,
        ) -> u64;
        pub fn lamptassel_scrub(
            kind: u64,
            block: u64,
            exponent: u64,
            first: u64,
            count: u64,
            ato: u64,
            segment: *const u8,
            segment_length: usize,
            place: u64,
            blocks: u64,
            next: *mut u64,
            judged: *mut u64,
            faults: *mut u64,
            first_fault: *mut u64,
        ) -> u64;
        pub fn lamptassel_parity(
            kind: u64,
            block: u64,
            exponent: u64,
            first: u64,
            count: u64,
            ato: u64,
            k: u64,
            members: *const u8,
            members_length: usize,
            out: *mut u8,
            out_length: usize,
        ) -> u64;
        pub fn lamptassel_rebuild(
            kind: u64,
            block: u64,
            exponent: u64,
            first: u64,
            count: u64,
            ato: u64,
            k: u64,
            lost: u64,
            parts: *const u8,
            parts_length: usize,
            out: *mut u8,
            out_length: usize,
        ) -> u64;
        pub fn lamptassel_correct(
            kind: u64,
            block: u64,
            exponent: u64,
            first: u64,
            count: u64,
            ato: u64,
            old: *const u8,
            old_length: usize,
            fresh: *const u8,
            fresh_length: usize,
            parity: *mut u8,
            parity_length: usize,
        ) -> u64;
        pub fn lamptassel_guard(data: *const u8, length: usize) -> u16;
        pub fn lamptassel_guard_by_division(data: *const u8, length: usize) -> u16;
        pub fn lamptassel_guards(
            data: *const u8,
            length: usize,
            size: usize,
            out: *mut u8,
            out_length: usize,
        ) -> u64;
        pub fn lamptassel_list(
            input: *const u8,
            input_length: usize,
            out: *mut u8,
            out_length: usize,
        ) -> usize;
        pub fn lamptassel_sense(number: u64) -> u32;
    }
}

// SAFETY, of every call below: a function reads and writes no more than the bytes
// of the slices and the places it is handed, and keeps nothing.

/// The answer's number, the block's address and the interval's place.
#[inline(always)]
pub fn execute(d: &Description, segment: &mut [u8], command: &[u8], buffer: &mut [u8]) -> Outcome {
    let (mut address, mut place) = (0, 0);
    let answer = unsafe {
        c::lamptassel_execute(
            d.p,
            d.b,
            d.e,
            d.w,
            d.n,
            d.ato,
            segment.as_mut_ptr(),
            segment.len(),
            command.as_ptr(),
            command.len(),
            buffer.as_mut_ptr(),
            buffer.len(),
            &mut address,
            &mut place,
        )
    };
    Outcome {
        answer,
        address,
        place,
    }
}

/// The answer's number and the type.
#[inline(always)]
pub fn format(spt: u64, protect: u64, fmtpinfo: u64, usage: u64) -> (u64, u64) {
    let mut kind = 0;
    let answer = unsafe { c::lamptassel_format_choice(spt, protect, fmtpinfo, usage, &mut kind) };
    (answer, kind)
}

#[inline(always)]
pub fn fill(d: &Description, segment: &mut [u8]) -> u64 {
    let (pointer, length) = (segment.as_mut_ptr(), segment.len());
    unsafe { c::lamptassel_fill(d.p, d.b, d.e, d.w, d.n, d.ato, pointer, length) }
}

/// The answer's number, the new place, the blocks judged, how many had a fault and
/// the address of the first.
#[inline(always)]
pub fn scrub(d: &Description, segment: &[u8], place: u64, blocks: u64) -> Scrubbed {
    let mut next = MaybeUninit::uninit();
    let mut judged = MaybeUninit::uninit();
    let mut faults = MaybeUninit::uninit();
    let mut first_fault = MaybeUninit::uninit();
    // SAFETY: the four places are written with every answer.
    unsafe {
        let answer = c::lamptassel_scrub(
            d.p,
            d.b,
            d.e,
            d.w,
            d.n,
            d.ato,
            segment.as_ptr(),
            segment.len(),
            place,
            blocks,
            next.as_mut_ptr(),
            judged.as_mut_ptr(),
            faults.as_mut_ptr(),
            first_fault.as_mut_ptr(),
        );
        Scrubbed {
            answer,
            next: next.assume_init(),
            judged: judged.assume_init(),
            faults: faults.assume_init(),
            first_fault: first_fault.assume_init(),
        }
    }
}

#[inline(always)]
pub fn parity(d: &Description, k: u64, members: &[u8], out: &mut [u8]) -> u64 {
    unsafe {
        c::lamptassel_parity(
            d.p,
            d.b,
            d.e,
            d.w,
            d.n,
            d.ato,
            k,
            members.as_ptr(),
            members.len(),
            out.as_mut_ptr(),
            out.len(),
        )
    }
}

#[inline(always)]
pub fn rebuild(d: &Description, k: u64, lost: u64, parts: &[u8], out: &mut [u8]) -> u64 {
    unsafe {
        c::lamptassel_rebuild(
            d.p,
            d.b,
            d.e,
            d.w,
            d.n,
            d.ato,
            k,
            lost,
            parts.as_ptr(),
            parts.len(),
            out.as_mut_ptr(),
            out.len(),
        )
    }
}

#[inline(always)]
pub fn correct(d: &Description, old: &[u8], fresh: &[u8], parity: &mut [u8]) -> u64 {
    unsafe {
        c::lamptassel_correct(
            d.p,
            d.b,
            d.e,
            d.w,
            d.n,
            d.ato,
            old.as_ptr(),
            old.len(),
            fresh.as_ptr(),
            fresh.len(),
            parity.as_mut_ptr(),
            parity.len(),
        )
    }
}

#[inline(always)]
pub fn guard(data: &[u8]) -> u16 {
    unsafe { c::lamptassel_guard(data.as_ptr(), data.len()) }
}

#[inline(always)]
pub fn guard_by_division(data: &[u8]) -> u16 {
    unsafe { c::lamptassel_guard_by_division(data.as_ptr(), data.len()) }
}

/// The guards of the intervals of `size` bytes, two bytes each; the answer is 0,
/// or 4 if the lengths do not fit.
#[inline(always)]
pub fn guards(data: &[u8], size: usize, out: &mut [u8]) -> u64 {
    let (pointer, length) = (out.as_mut_ptr(), out.len());
    unsafe { c::lamptassel_guards(data.as_ptr(), data.len(), size, pointer, length) }
}

/// As much of the listing as `out` takes; how many bytes the whole has.
#[inline(always)]
pub fn list(input: &[u8], out: &mut [u8]) -> usize {
    unsafe { c::lamptassel_list(input.as_ptr(), input.len(), out.as_mut_ptr(), out.len()) }
}

/// Key, code and qualifier, two hexadecimal digits each; 0 for none.
#[inline(always)]
pub fn sense(number: u64) -> u32 {
    unsafe { c::lamptassel_sense(number) }
}
