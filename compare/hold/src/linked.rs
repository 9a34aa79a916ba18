//! The archive that is linked, as the library on trial.

use archive::c;
use hold::call::{Function, Lent, Library};

pub struct Archive;

impl Library for Archive {
    unsafe fn call(
        &self,
        function: Function,
        numbers: &[u64],
        lent: &[Lent],
        places: &[*mut u64],
    ) -> u64 {
        // SAFETY, of each call: what the caller promises of the pointers.
        match (function, numbers, lent, places) {
            (
                Function::Execute,
                &[p, b, e, w, n, ato],
                &[segment, command, buffer],
                &[address, place],
            ) => unsafe {
                c::lamptassel_execute(
                    p,
                    b,
                    e,
                    w,
                    n,
                    ato,
                    segment.pointer,
                    segment.length,
                    command.pointer,
                    command.length,
                    buffer.pointer,
                    buffer.length,
                    address,
                    place,
                )
            },
            (Function::Format, &[spt, protect, fmtpinfo, usage], [], &[kind]) => unsafe {
                c::lamptassel_format_choice(spt, protect, fmtpinfo, usage, kind)
            },
            (Function::Fill, &[p, b, e, w, n, ato], &[segment], []) => unsafe {
                c::lamptassel_fill(p, b, e, w, n, ato, segment.pointer, segment.length)
            },
            (
                Function::Scrub,
                &[p, b, e, w, n, ato, place, blocks],
                &[segment],
                &[next, judged, faults, first_fault],
            ) => unsafe {
                c::lamptassel_scrub(
                    p,
                    b,
                    e,
                    w,
                    n,
                    ato,
                    segment.pointer,
                    segment.length,
                    place,
                    blocks,
                    next,
                    judged,
                    faults,
                    first_fault,
                )
            },
            (Function::Parity, &[p, b, e, w, n, ato, k], &[members, out], []) => unsafe {
                c::lamptassel_parity(
                    p,
                    b,
                    e,
                    w,
                    n,
                    ato,
                    k,
                    members.pointer,
                    members.length,
                    out.pointer,
                    out.length,
                )
            },
            (Function::Rebuild, &[p, b, e, w, n, ato, k, lost], &[parts, out], []) => unsafe {
                c::lamptassel_rebuild(
                    p,
                    b,
                    e,
                    w,
                    n,
                    ato,
                    k,
                    lost,
                    parts.pointer,
                    parts.length,
                    out.pointer,
                    out.length,
                )
            },
            (Function::Correct, &[p, b, e, w, n, ato], &[old, fresh, parity], []) => unsafe {
                c::lamptassel_correct(
                    p,
                    b,
                    e,
                    w,
                    n,
                    ato,
                    old.pointer,
                    old.length,
                    fresh.pointer,
                    fresh.length,
                    parity.pointer,
                    parity.length,
                )
            },
            (Function::Guard, [], &[data], []) => unsafe {
                c::lamptassel_guard(data.pointer, data.length).into()
            },
            (Function::GuardByDivision, [], &[data], []) => unsafe {
                c::lamptassel_guard_by_division(data.pointer, data.length).into()
            },
            (Function::Guards, &[size], &[data, out], []) => unsafe {
                c::lamptassel_guards(
                    data.pointer,
                    data.length,
                    size as usize,
                    out.pointer,
                    out.length,
                )
            },
            (Function::List, [], &[input, out], []) => unsafe {
                c::lamptassel_list(input.pointer, input.length, out.pointer, out.length) as u64
            },
            (Function::Sense, &[number], [], []) => unsafe { c::lamptassel_sense(number).into() },
            _ => panic!("{function:?} has other numbers, slices or places"),
        }
    }
}
