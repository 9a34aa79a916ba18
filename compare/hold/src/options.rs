//! The command line.

pub const USAGE: &str = "\
usage: hold [--seed NUMBER] [--count NUMBER]

--seed NUMBER   where the random calls and the series of scrubs begin (1)
--count NUMBER  how many random calls there are beside the systematic ones (500000);
                there is a series for every twenty of them, and some over one block
                and over 65,536 in any case";

#[derive(Debug, PartialEq, Eq)]
pub struct Options {
    pub seed: u64,
    pub count: u64,
}

impl Options {
    /// Reads the arguments; an error says what is wrong with them.
    pub fn read(arguments: impl IntoIterator<Item = String>) -> Result<Self, String> {
        let mut options = Options {
            seed: 1,
            count: 500_000,
        };
        let mut arguments = arguments.into_iter();
        while let Some(argument) = arguments.next() {
            let number = match argument.as_str() {
                "--seed" => &mut options.seed,
                "--count" => &mut options.count,
                _ => return Err(format!("unknown argument {argument}")),
            };
            let value = arguments.next().and_then(|value| value.parse().ok());
            *number = value.ok_or_else(|| format!("{argument} needs a number"))?;
        }
        Ok(options)
    }
}

#[cfg(test)]
mod tests {
    use super::*;

    fn read(line: &str) -> Result<Options, String> {
        Options::read(line.split_whitespace().map(String::from))
    }

    #[test]
    fn options_are_read() {
        let (seed, count) = (9, 0);
        assert_eq!(read("--count 0 --seed 9"), Ok(Options { seed, count }));
        for wrong in ["--seed", "--seed x", "--count -1", "9", "--sed 9"] {
            assert!(read(wrong).is_err(), "{wrong}");
        }
    }
}
