//! What the program prints for an input, worked out from an engine's read, verdict and tables: document 01, "Numbers worked by hand".

use crate::engines::Engine;
use crate::input::READ;
use crate::slices::Slices;

/// The most bytes that the program judges.
const MOST_BYTES: usize = 28_672;

/// A refusal's number and block.
type Refused = (u64, usize);

/// The lines printed for a file.
pub fn printed(engine: &impl Engine, file: &[u8]) -> String {
    session(engine, file).unwrap_or_else(|(number, block)| format!("refused {number} {block}\n"))
}

fn session(engine: &impl Engine, file: &[u8]) -> Result<String, Refused> {
    if file.len() > MOST_BYTES {
        return Err((8, 0));
    }
    let case = read(engine, file)?;
    let mut block = 0;
    let mut verdict = [0; 4];
    answered(engine.verdict(&case, &mut verdict, &mut block), block)?;
    let mut printed = format!("verdict {}\n", joined(&verdict));
    if verdict[0] == 21 || verdict[0] == 22 {
        return Ok(printed);
    }
    let a_layer = case.columns.len() * case.rows.len();
    for layer in 1..=case.record[2] as usize {
        let is_marked = |place: usize| i64::from(place / a_layer + 1 == layer);
        let marks: Vec<i64> = (0..case.blocks()).map(is_marked).collect();
        printed += &rows(engine, &case, &marks, &format!("layer {layer}"))?;
    }
    printed += &rows(engine, &case, &vec![1; case.blocks()], "all")?;
    Ok(printed)
}

/// Reads a file into slices that are just as long as it needs.
fn read(engine: &impl Engine, file: &[u8]) -> Result<Slices, Refused> {
    let [record, columns, rows, slots] = READ.map(|length| vec![0; length]);
    let mut case = Slices { record, columns, rows, slots };
    let mut block = 0;
    answered(engine.read(file, &mut case, &mut block), block)?;
    case.columns.truncate(case.record[0] as usize);
    case.rows.truncate(case.record[1] as usize);
    case.slots.truncate(crate::slices::SLOTS * case.record[..3].iter().product::<i64>() as usize);
    Ok(case)
}

/// The two rows of a zone's table.
fn rows(engine: &impl Engine, case: &Slices, marks: &[i64], name: &str) -> Result<String, Refused> {
    let (mut lines, mut block) = ([0; 18], 0);
    answered(engine.zone_table(case, marks, &mut lines, &mut block), block)?;
    Ok(format!("{name} fresh {}\n{name} salt {}\n", joined(&lines[..9]), joined(&lines[9..])))
}

fn answered(refusal: u64, block: usize) -> Result<(), Refused> {
    if refusal == 0 {
        Ok(())
    } else {
        Err((refusal, block))
    }
}

fn joined(numbers: &[i64]) -> String {
    numbers.iter().map(i64::to_string).collect::<Vec<_>>().join(" ")
}
