//! Prints the verdict on the heads of a case file, and, where they are accepted, the water account of the whole grid in litres a day. The status is 0 if they
//! are accepted, 1 if they are not, 2 for a file that is refused, and 3 where nothing can be said.

use std::process::ExitCode;

use caydubeesh::{Case, Refusal};

/// Whether the heads are accepted.
fn print_balance(file: &[u8]) -> Result<bool, Refusal> {
    let case = Case::read(file)?;
    let told = case.verdict()?;
    println!("verdict {} {} {} {}", told.code, told.block, told.count, told.largest);
    if let Some(place) = case.place(told.block) {
        println!("{}: layer {}, row {}, column {}", told.words(), place.layer, place.row, place.column);
        return Ok(false);
    }
    let table = case.whole_table()?;
    println!("all fresh {}", table.fresh);
    println!("all salt {}", table.salt);
    Ok(true)
}

fn main() -> ExitCode {
    let Some(name) = std::env::args().nth(1) else {
        eprintln!("usage: balance FILE");
        return ExitCode::from(3);
    };
    let file = match std::fs::read(&name) {
        Ok(file) => file,
        Err(error) => {
            eprintln!("balance: {name}: {error}");
            return ExitCode::from(3);
        }
    };
    match print_balance(&file) {
        Ok(accepted) => ExitCode::from(if accepted { 0 } else { 1 }),
        Err(refusal) => {
            println!("{refusal}");
            ExitCode::from(2)
        }
    }
}
