//! Compares the proved functions with the second reading on many inputs.

mod options;
mod progress;

use std::fs::{self, OpenOptions};
use std::io::Write;
use std::panic::{catch_unwind, AssertUnwindSafe};
use std::process::ExitCode;

use comparison::engines::{Archive, Reference};
use comparison::generator;
use comparison::input::Input;
use comparison::kept;
use comparison::tally::Tally;
use options::{Options, HELP};
use progress::Progress;

/// Why a run has no result.
type Trouble = String;

fn main() -> ExitCode {
    let result = match options::read(std::env::args().skip(1)) {
        Ok(Options::Help) => {
            print!("{HELP}");
            return ExitCode::SUCCESS;
        }
        Ok(Options::Seed { seed, count, keep }) => compare_generated(seed, count, keep.as_deref()),
        Ok(Options::Again(name)) => compare_kept(&name),
        Err(trouble) => Err(format!("{trouble}; --help says how to use it")),
    };
    match result {
        Ok(0) => ExitCode::SUCCESS,
        Ok(_) => ExitCode::from(1),
        Err(trouble) => {
            eprintln!("compare: {trouble}");
            ExitCode::from(2)
        }
    }
}

/// Compares the first inputs of a seed, up to the first difference, and gives how many differ.
fn compare_generated(seed: u64, count: u64, keep: Option<&str>) -> Result<usize, Trouble> {
    let (mut tally, mut progress) = (Tally::default(), Progress::of(count));
    for number in 1..=count {
        let (kind, input) = generator::input(seed, number);
        let found = compare(&mut tally, generator::KINDS[kind].name, &input);
        progress.show(number, tally.differ);
        if let Some(told) = found {
            progress.end();
            tell(&format!("input {number} of seed {seed}, {}", generator::KINDS[kind].name), &told, &input);
            tell_tally(&format!("seed {seed}"), &tally);
            keep_line(keep, &kept::line(&input))?;
            return Ok(tally.differ);
        }
    }
    progress.end();
    tell_tally(&format!("seed {seed}"), &tally);
    Ok(tally.differ)
}

/// Compares all inputs of a file of kept lines, and gives how many differ.
fn compare_kept(name: &str) -> Result<usize, Trouble> {
    let text = fs::read_to_string(name).map_err(|error| format!("{name}: {error}"))?;
    let mut tally = Tally::default();
    for (line, number) in text.lines().zip(1..).filter(|(line, _)| !line.trim().is_empty()) {
        let input = kept::input(line).map_err(|trouble| format!("{name}, line {number}: {trouble}"))?;
        if let Some(told) = compare(&mut tally, "kept", &input) {
            tell(&format!("{name}, line {number}"), &told, &input);
        }
    }
    tell_tally(name, &tally);
    Ok(tally.differ)
}

/// What differs, if anything. An engine that panics differs too.
fn compare(tally: &mut Tally, kind: &'static str, input: &Input) -> Option<String> {
    let compared = catch_unwind(AssertUnwindSafe(|| tally.compare(&Archive, &Reference, kind, input)));
    match compared {
        Ok(difference) => difference.map(|difference| difference.told("archive", "reference")),
        Err(_) => {
            tally.inputs += 1;
            tally.differ += 1;
            Some("one of the two ended with a panic\n".into())
        }
    }
}

/// Prints a difference with the line of its input.
fn tell(place: &str, told: &str, input: &Input) {
    println!("{place}: a difference\n{told}{}", kept::line(input));
}

fn tell_tally(source: &str, tally: &Tally) {
    print!("{source}: {} inputs compared, {} differ\n{tally}", tally.inputs, tally.differ);
}

/// Adds a line to the file of kept inputs, if there is one.
fn keep_line(name: Option<&str>, line: &str) -> Result<(), Trouble> {
    let Some(name) = name else {
        return Ok(());
    };
    let added = OpenOptions::new().create(true).append(true).open(name).and_then(|mut file| writeln!(file, "{line}"));
    added.map_err(|error| format!("{name}: {error}"))
}
