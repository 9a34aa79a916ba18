//! What a run reaches, and what it says when it does not.

use hold::call::{Call, Function};
use hold::report::Tally;
use hold::runs::{self, Run, side_by_side};
use hold::trial::{Part, Trial};
use hold::{formats, guards};

use crate::library::{Honest, Passing, Planted};

#[test]
fn an_honest_library_passes_and_every_answer_is_reached() {
    let tally = side_by_side(&Honest, &runs::all(7, 0)).expect("no difference");
    assert_eq!(tally.amiss(), [""; 0]);
}

#[test]
fn random_calls_alone_reach_every_answer() {
    let mut trial = Trial::new(&Honest);
    assert!(trial.random(7, 60_000).is_ok());
    assert_eq!(trial.tally.amiss(), [""; 0]);
    assert_eq!(trial.tally.inputs(), 60_000);
}

#[test]
fn runs_side_by_side_reach_what_each_reaches() {
    let random = |seed| Run::Random { seed, count: 2_000 };
    let tally = side_by_side(&Honest, &[1, 2, 3].map(random)).expect("no difference");
    let mut trial = Trial::new(&Honest);
    for seed in [1, 2, 3] {
        assert!(trial.random(seed, 2_000).is_ok());
    }
    assert_eq!(tally.inputs(), 6_000);
    assert_eq!(tally.to_string(), trial.tally.to_string());
}

#[test]
fn the_first_run_with_a_difference_is_named_and_its_input() {
    let library = Planted(|call: Passing<'_>| {
        let wrong = call.function == Function::Guard && call.bytes(0).len() == 5;
        call.honest() ^ u64::from(wrong)
    });
    // The second comes to the fault sooner.
    let late: Part = |put| {
        formats::each(put)?;
        guards::each(put)
    };
    let runs = [
        Run::Random { seed: 1, count: 0 },
        Run::Part("first", late),
        Run::Part("second", guards::each),
    ];
    let mut trial = Trial::new(&library);
    assert!(late(&mut |call| trial.put(call)).is_err());
    let parted = side_by_side(&library, &runs).err().expect("the fault");
    assert_eq!(parted.run.to_string(), "first");
    assert_eq!(parted.number, trial.tally.inputs());
    assert_eq!(parted.difference.call.function, Function::Guard);
}

#[test]
fn an_answer_that_was_not_reached_is_named() {
    let mut tally = Tally::default();
    tally.note(Function::Format, Some(0));
    tally.note(Function::Format, Some(12));
    let amiss = tally.amiss();
    assert!(amiss.contains(&"format did not reach answer 6".into()));
    assert!(!amiss.contains(&"format did not reach answer 12".into()));
    assert!(amiss.contains(&"execute did not reach answer 10".into()));
    assert!(amiss.contains(&"execute did not reach answer 15".into()));
    assert!(amiss.contains(&"guard was not called".into()));
}

#[test]
fn an_answer_that_cannot_be_reached_is_named() {
    let mut tally = Tally::default();
    tally.note(Function::Execute, Some(14));
    assert!(
        tally
            .amiss()
            .contains(&"execute cannot reach answer 14".into())
    );
}

#[test]
fn the_same_seed_makes_the_same_calls() {
    let calls = |seed| {
        let mut numbers = hold::numbers::Numbers::new(seed);
        let call = |_| hold::executes::any(&mut numbers);
        (0..50).map(call).collect::<Vec<Call>>()
    };
    let shown = |seed| format!("{:?}", calls(seed));
    assert_eq!(shown(3), shown(3));
    assert_ne!(shown(3), shown(4));
}
