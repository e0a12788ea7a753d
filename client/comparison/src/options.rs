//! What the command line asks for.

pub const HELP: &str = "\
usage: client/compare [--seed S] [--count N] [--keep FILE]
       client/compare --again FILE

Asks the proved functions and the second reading of document 01 the same, and compares their answers whole: the refusal, the
block that it names, and all memory lent for the answer, also where it is not to be touched.

  --seed S      the seed of the inputs, a whole number (default 1); the same seed gives the same inputs as long as the proved
                functions answer the same: some inputs are put at a limit or a balance that they tell
  --count N     how many inputs to compare (default 100000)
  --keep FILE   adds the input that differs to FILE, as one line
  --again FILE  compares the inputs in FILE: kept lines, or lines in the form of docs/VECTORS.md
  --help        prints this

An input counts once. It is a case in slices (compared: check, verdict, table of a zone, report of a block), a case and other
heads for one of its blocks (the balances of every block; those outside the reach of these heads must not change, and the
block that is told is the first that does), a case file (read), or a double and a tick (tick, sea floor, metres). The first
difference ends a run with a seed. A difference is printed with both answers and with the line of its input. Answers are
counted by the refusal, each function's for itself.

Exit status: 0 nothing differs, 1 something differs, 2 bad usage or trouble.

Example: client/compare --seed 7 --count 1000000 --keep differences.jsonl
";

#[derive(Debug, PartialEq, Eq)]
pub enum Options {
    Help,
    Seed { seed: u64, count: u64, keep: Option<String> },
    Again(String),
}

/// Reads the command line.
pub fn read(mut arguments: impl Iterator<Item = String>) -> Result<Options, String> {
    let (mut seed, mut count, mut keep, mut again) = (None, None, None, None);
    while let Some(name) = arguments.next() {
        if name == "--help" || name == "-h" {
            return Ok(Options::Help);
        }
        let mut value = || arguments.next().ok_or(format!("{name} has no value"));
        match name.as_str() {
            "--seed" => seed = Some(number(&name, &value()?)?),
            "--count" => count = Some(number(&name, &value()?)?),
            "--keep" => keep = Some(value()?),
            "--again" => again = Some(value()?),
            _ => return Err(format!("{name} is no option")),
        }
    }
    match again {
        None => Ok(Options::Seed { seed: seed.unwrap_or(1), count: count.unwrap_or(100_000), keep }),
        Some(name) if seed.is_none() && count.is_none() && keep.is_none() => Ok(Options::Again(name)),
        Some(_) => Err("--again goes without other options".into()),
    }
}

fn number(name: &str, value: &str) -> Result<u64, String> {
    value.parse().map_err(|_| format!("{name} {value} is no whole number"))
}

#[cfg(test)]
mod tests {
    use super::*;

    fn read_words(words: &str) -> Result<Options, String> {
        read(words.split_whitespace().map(String::from))
    }

    #[test]
    fn good_words() {
        assert_eq!(read_words(""), Ok(Options::Seed { seed: 1, count: 100_000, keep: None }));
        assert_eq!(read_words("--keep f --count 3 --seed 9"), Ok(Options::Seed { seed: 9, count: 3, keep: Some("f".into()) }));
        assert_eq!(read_words("--again f"), Ok(Options::Again("f".into())));
        assert_eq!(read_words("--seed 2 --help"), Ok(Options::Help));
    }

    #[test]
    fn bad_words() {
        for words in ["more", "--seed", "--seed -1", "--count x", "--count 1.5", "--again f --seed 1", "--keep f --again f"] {
            assert!(read_words(words).is_err(), "{words}");
        }
    }
}
