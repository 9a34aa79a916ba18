//! How often each function was called and each answer reached.

use std::fmt;

use crate::call::Function;

/// Answer numbers 0 to 15.
const NUMBERS: usize = 16;

#[derive(Default)]
pub struct Tally {
    rows: [Row; Function::ALL.len()],
}

#[derive(Clone, Copy, Default)]
struct Row {
    inputs: u64,
    answers: [u64; NUMBERS],
}

impl Tally {
    pub fn note(&mut self, function: Function, answer: Option<u64>) {
        let row = &mut self.rows[function as usize];
        row.inputs += 1;
        if let Some(answer) = answer {
            row.answers[answer as usize] += 1;
        }
    }

    /// Adds what another trial reached.
    pub fn add(&mut self, other: &Tally) {
        for (row, more) in self.rows.iter_mut().zip(&other.rows) {
            row.inputs += more.inputs;
            for (times, more) in row.answers.iter_mut().zip(more.answers) {
                *times += more;
            }
        }
    }

    pub fn inputs(&self) -> u64 {
        self.rows.iter().map(|row| row.inputs).sum()
    }

    /// What should have been reached and was not, or was and cannot be.
    pub fn amiss(&self) -> Vec<String> {
        let mut out = Vec::new();
        for (function, row) in self.rows() {
            let name = function.name();
            if row.inputs == 0 {
                out.push(format!("{name} was not called"));
            }
            for (number, &times) in row.answers.iter().enumerate() {
                match (function.answers().contains(&(number as u64)), times) {
                    (true, 0) => out.push(format!("{name} did not reach answer {number}")),
                    (false, 1..) => out.push(format!("{name} cannot reach answer {number}")),
                    _ => {}
                }
            }
        }
        out
    }

    fn rows(&self) -> impl Iterator<Item = (Function, &Row)> {
        Function::ALL.into_iter().zip(&self.rows)
    }
}

impl fmt::Display for Tally {
    fn fmt(&self, f: &mut fmt::Formatter<'_>) -> fmt::Result {
        writeln!(f, "{:<18}{:>10}  times each answer", "function", "inputs")?;
        for (function, row) in self.rows() {
            write!(f, "{:<18}{:>10} ", function.name(), row.inputs)?;
            for number in function.answers() {
                write!(f, " {number}: {}", row.answers[*number as usize])?;
            }
            writeln!(f)?;
        }
        write!(f, "{:<18}{:>10}", "all", self.inputs())
    }
}
