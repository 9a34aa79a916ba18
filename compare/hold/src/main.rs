//! Holds the archive against the reference on very many calls, and in series of scrubs
//! against itself too.
//!
//! Exit status 1 if they part, an answer was not reached, or memory was touched that
//! was not lent; 2 for arguments it does not know; 3 if its output cannot be written.

mod linked;

use std::fmt::Display;
use std::io::{self, ErrorKind, Write};
use std::process::ExitCode;

use hold::compare::Sides;
use hold::options::{Options, USAGE};
use hold::runs::{self, Parted};
use linked::Archive;

fn main() -> ExitCode {
    let options = match Options::read(std::env::args().skip(1)) {
        Ok(options) => options,
        Err(message) => {
            complain(format_args!("{message}\n{USAGE}"));
            return ExitCode::from(2);
        }
    };
    match hold(&options, &mut io::stdout()) {
        Ok(true) => ExitCode::SUCCESS,
        Ok(false) => ExitCode::FAILURE,
        Err(error) => {
            // A reader who has left wants no message.
            if error.kind() != ErrorKind::BrokenPipe {
                complain(error);
            }
            ExitCode::from(3)
        }
    }
}

/// Runs the trial and prints what came of it; whether all agree and each answer
/// was reached.
fn hold(options: &Options, out: &mut impl Write) -> io::Result<bool> {
    let runs = runs::all(options.seed, options.count);
    let tally = match runs::side_by_side(&Archive, &runs) {
        Ok(tally) => tally,
        Err(parted) => {
            let Parted {
                run,
                number,
                difference,
            } = parted;
            let sides = match difference.sides {
                Sides::ReferenceAndLibrary => "archive and reference",
                Sides::OneCallAndSeries(_) => "the archive's series and its one call",
                Sides::ListingAndOneCall => "the archive's one call and its listing",
            };
            writeln!(out, "{run}, input {number} from 0: {sides} part")?;
            writeln!(out, "{difference}")?;
            return Ok(false);
        }
    };
    writeln!(out, "{tally}")?;
    writeln!(out, "seed {}: all agree", options.seed)?;
    let amiss = tally.amiss();
    for line in &amiss {
        complain(line);
    }
    Ok(amiss.is_empty())
}

/// A message to standard error; if that is closed there is nobody to tell.
fn complain(message: impl Display) {
    let _ = writeln!(io::stderr(), "hold: {message}");
}
