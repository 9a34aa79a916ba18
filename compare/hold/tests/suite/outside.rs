//! Reads outside what is lent. Each ends the program, so that it is tried in one of
//! its own.

use std::env;
use std::process::Command;

use hold::call::Function;
use hold::runs::Run;
use hold::trial::Trial;
use hold::watch;

use crate::classes::systematic;
use crate::library::{Passing, Planted};

/// Names the function, the slice and the side.
const TOUCH: &str = "HOLD_TOUCH";

/// Each function with how many slices it is lent.
const LENT: [(Function, usize); 10] = [
    (Function::Execute, 3),
    (Function::Fill, 1),
    (Function::Scrub, 1),
    (Function::Parity, 2),
    (Function::Rebuild, 2),
    (Function::Correct, 3),
    (Function::Guard, 1),
    (Function::GuardByDivision, 1),
    (Function::Guards, 2),
    (Function::List, 2),
];

#[test]
fn a_read_outside_any_slice_is_found() {
    for (function, slices) in LENT {
        for slice in 0..slices {
            for (side, way) in [("before", "right behind"), ("behind", "right before")] {
                let name = function.name();
                let child = Command::new(env::current_exe().expect("this program"))
                    .args(["--exact", "outside::touches", "--nocapture"])
                    .env(TOUCH, format!("{name} {slice} {side}"))
                    .output()
                    .expect("a program of its own");
                let said = String::from_utf8_lossy(&child.stderr);
                assert_eq!(
                    child.status.code(),
                    Some(1),
                    "{name} {slice} {side}: {said}"
                );
                assert!(said.contains("hold: seed 5, input "), "{said}");
                assert!(said.contains(&format!("function {name}\n")), "{said}");
                assert!(said.contains(&format!("lent {way} a page")), "{said}");
            }
        }
    }
}

/// What the program of its own does; nothing in a plain run of the tests.
#[test]
fn touches() {
    let Ok(touch) = env::var(TOUCH) else { return };
    let [name, slice, side] = touch.split(' ').collect::<Vec<_>>()[..] else {
        panic!("{touch}")
    };
    let slice: usize = slice.parse().expect("a number");
    watch::install(Run::Random { seed: 5, count: 0 });
    let library = Planted(|call: Passing<'_>| {
        let answer = call.honest();
        // A listing's answer is its length.
        let good = answer == 0 || call.function == Function::List;
        let plain = call.function.answers().is_empty();
        if call.function.name() == name && (good || plain) {
            let length = call.lent[slice].length;
            if length > 0 {
                call.peek(
                    slice,
                    if side == "before" {
                        -1
                    } else {
                        length as isize
                    },
                );
            }
        }
        answer
    });
    let (function, _) = LENT
        .into_iter()
        .find(|(one, _)| one.name() == name)
        .expect("a function");
    let mut trial = Trial::new(&library);
    let held = systematic(function)(&mut |call| trial.put(call));
    assert!(held.is_ok(), "the fault changes no byte");
}
