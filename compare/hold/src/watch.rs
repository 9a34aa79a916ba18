//! Says which input a library was at when it touched memory that nobody may touch.

use std::cell::Cell;
use std::ffi::c_int;
use std::io::{self, Write};
use std::ptr;

use crate::call::Call;
use crate::fence::Way;
use crate::runs::Run;

/// Linux's numbers.
const SIGBUS: c_int = 7;
const SIGSEGV: c_int = 11;

unsafe extern "C" {
    fn signal(number: c_int, handler: extern "C" fn(c_int)) -> usize;
    fn _exit(status: c_int) -> !;
}

/// The call that a library is at.
struct At<'a> {
    call: &'a Call,
    way: Way,
}

thread_local! {
    static RUN: Cell<Option<Run>> = const { Cell::new(None) };
    static INPUT: Cell<u64> = const { Cell::new(0) };
    static AT: Cell<*const At<'static>> = const { Cell::new(ptr::null()) };
}

/// From now on such a touch ends the program with a message to standard error and
/// exit status 1. On this thread the message names this run.
pub fn install(run: Run) {
    RUN.set(Some(run));
    for number in [SIGBUS, SIGSEGV] {
        // SAFETY: the handler ends the program.
        unsafe { signal(number, touched) };
    }
}

/// The number of the input that follows.
pub fn input(number: u64) {
    INPUT.set(number);
}

/// Runs a library's part of a call.
pub fn over<T>(call: &Call, way: Way, run: impl FnOnce() -> T) -> T {
    let at = At { call, way };
    AT.set((&raw const at).cast());
    let result = run();
    AT.set(ptr::null());
    result
}

/// The signal comes from the library's own code or from this program's, never from
/// within a lock of standard error or of the heap, so that a message can be made.
extern "C" fn touched(_: c_int) {
    let mut out = io::stderr();
    let run = RUN.get().map_or_else(String::new, |run| format!("{run}, "));
    let number = INPUT.get();
    let _ = writeln!(
        out,
        "hold: {run}input {number} from 0: memory that nobody may touch was touched"
    );
    // SAFETY: set for as long as the call is there; nobody writes it now.
    if let Some(at) = unsafe { AT.get().as_ref() } {
        let _ = writeln!(out, "{}\nlent {}", at.call, at.way);
    }
    // SAFETY: ends the program.
    unsafe { _exit(1) }
}
