//! The speed of the archive beside the reference, on the same inputs in one run.
//!
//! Exit status 1 if results differ, or with --strict if a ratio is over its
//! limit; 2 for arguments it does not know; 3 if its output cannot be written.

mod bytes;
mod commands;
mod growth;
mod guard;
mod job;
mod options;
mod scrub;
mod stripes;
mod table;

use std::fmt::Display;
use std::io::{self, ErrorKind, Write};
use std::process::ExitCode;

use options::{Options, USAGE};
use table::{Output, Verdict};

/// A table by name. A further benchmark is a module with a `run` and a line here.
type Table = (
    &'static str,
    fn(&Options, Output<'_>) -> io::Result<Verdict>,
);

const TABLES: [Table; 5] = [
    ("guard", guard::run),
    ("commands", commands::run),
    ("growth", growth::run),
    ("scrub", scrub::run),
    ("stripes", stripes::run),
];

fn main() -> ExitCode {
    let options = match Options::read(std::env::args().skip(1)).and_then(known) {
        Ok(options) => options,
        Err(message) => {
            complain(format_args!("{message}\n{USAGE}"));
            return ExitCode::from(2);
        }
    };
    match tables(&options, &mut io::stdout()) {
        Ok(verdict) if verdict.differ => {
            complain("results differ");
            ExitCode::FAILURE
        }
        Ok(verdict) if verdict.over && options.strict => {
            complain("over a limit");
            ExitCode::FAILURE
        }
        Ok(_) => ExitCode::SUCCESS,
        Err(error) => {
            // A reader who has left wants no message.
            if error.kind() != ErrorKind::BrokenPipe {
                complain(error);
            }
            ExitCode::from(3)
        }
    }
}

/// Measures and prints the tables that are wanted.
fn tables(options: &Options, out: Output<'_>) -> io::Result<Verdict> {
    let mut verdict = Verdict::default();
    for (_, run) in TABLES.iter().filter(|(name, _)| options.wants(name)) {
        verdict = verdict.and(run(options, out)?);
    }
    Ok(verdict)
}

/// A message to standard error; if that is closed there is nobody to tell.
fn complain(message: impl Display) {
    let _ = writeln!(io::stderr(), "bench: {message}");
}

/// The options, unless they name a table that is not here.
fn known(options: Options) -> Result<Options, String> {
    let stranger = options
        .names
        .iter()
        .find(|wanted| TABLES.iter().all(|(name, _)| name != wanted));
    match stranger {
        Some(name) => {
            let names: Vec<&str> = TABLES.iter().map(|(name, _)| *name).collect();
            Err(format!("no table {name}; there are: {}", names.join(", ")))
        }
        None => Ok(options),
    }
}
