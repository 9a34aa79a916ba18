//! The command line.

pub const USAGE: &str = "\
usage: bench [NAME..] [--blocks COUNT] [--rounds COUNT] [--strict]

NAME is a table to measure; all of them if none is named.
--blocks COUNT  blocks of 4,096 bytes that a pass goes through, at least one call (256)
--rounds COUNT  passes of each kind, of which the best counts (60)
--strict        a ratio over its limit is a failure";

pub struct Options {
    pub names: Vec<String>,
    pub blocks: usize,
    pub rounds: usize,
    pub strict: bool,
}

impl Options {
    /// Reads the arguments; an error says what is wrong with them.
    pub fn read(arguments: impl IntoIterator<Item = String>) -> Result<Self, String> {
        let mut options = Options {
            names: Vec::new(),
            blocks: 256,
            rounds: 60,
            strict: false,
        };
        let mut arguments = arguments.into_iter();
        while let Some(argument) = arguments.next() {
            match argument.as_str() {
                "--blocks" => options.blocks = count(&argument, arguments.next())?,
                "--rounds" => options.rounds = count(&argument, arguments.next())?,
                "--strict" => options.strict = true,
                flag if flag.starts_with('-') => return Err(format!("unknown option {flag}")),
                _ => options.names.push(argument),
            }
        }
        Ok(options)
    }

    /// Whether a table is to be measured.
    pub fn wants(&self, name: &str) -> bool {
        self.names.is_empty() || self.names.iter().any(|wanted| wanted == name)
    }
}

fn count(option: &str, value: Option<String>) -> Result<usize, String> {
    match value.map(|value| value.parse()) {
        Some(Ok(count @ 1..=1_048_576)) => Ok(count),
        _ => Err(format!("{option} needs a count from 1 to 1048576")),
    }
}
