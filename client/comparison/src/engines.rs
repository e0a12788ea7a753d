//! The two implementations behind one interface: the proved archive as it is, and the reference with what the surface adds to document 01.
//! It adds that a short record is refused with 7 before all else, that a short answer is refused with 7 in 7's place, after 3 and before 4,
//! and where answers go.

use caydubeesh::raw;
use reference::Refusal;

use crate::slices::{Slices, RECORD};

/// The eight functions, and balances. Each function returns the number of the refusal and writes the block that it names; memory lent for the
/// answer is written by its front.
pub trait Engine {
    fn read(&self, file: &[u8], lent: &mut Slices, block: &mut usize) -> u64;
    fn check(&self, case: &Slices, block: &mut usize) -> u64;
    fn verdict(&self, case: &Slices, verdict: &mut [i64], block: &mut usize) -> u64;
    fn zone_table(&self, case: &Slices, marks: &[i64], lines: &mut [i64], block: &mut usize) -> u64;
    fn report(&self, case: &Slices, number: usize, metres: &mut [f64], block: &mut usize) -> u64;

    /// The table of a zone of one block, counted from 1.
    fn block_table(&self, case: &Slices, number: usize) -> Result<[i64; 18], Refusal> {
        let (mut marks, mut lines, mut block) = (vec![0; case.blocks()], [0; 18], 0);
        marks[number - 1] = 1;
        match self.zone_table(case, &marks, &mut lines, &mut block) {
            0 => Ok(lines),
            number => Err(Refusal { number, block }),
        }
    }

    /// The balances of every block, fresh before salt, litres a day: error less supply in the table of the block alone.
    fn balances(&self, case: &Slices) -> Result<Vec<[i64; 2]>, Refusal> {
        let balances = |number: usize| self.block_table(case, number).map(|lines| [lines[8] - lines[7], lines[17] - lines[16]]);
        (1..=case.blocks()).map(balances).collect()
    }

    fn tick(&self, metres: f64, tick: &mut i64) -> u64;
    fn floor_tick(&self, metres: f64, tick: &mut i64) -> u64;
    fn metres(&self, tick: i64, metres: &mut f64) -> u64;
}

/// The proved functions.
pub struct Archive;

impl Engine for Archive {
    fn read(&self, file: &[u8], lent: &mut Slices, block: &mut usize) -> u64 {
        raw::read(file, &mut lent.record, &mut lent.columns, &mut lent.rows, &mut lent.slots, block)
    }

    fn check(&self, case: &Slices, block: &mut usize) -> u64 {
        raw::check(&case.record, &case.columns, &case.rows, &case.slots, block)
    }

    fn verdict(&self, case: &Slices, verdict: &mut [i64], block: &mut usize) -> u64 {
        raw::verdict(&case.record, &case.columns, &case.rows, &case.slots, verdict, block)
    }

    fn zone_table(&self, case: &Slices, marks: &[i64], lines: &mut [i64], block: &mut usize) -> u64 {
        raw::zone_table(&case.record, &case.columns, &case.rows, &case.slots, marks, lines, block)
    }

    fn report(&self, case: &Slices, number: usize, metres: &mut [f64], block: &mut usize) -> u64 {
        raw::report(&case.record, &case.columns, &case.rows, &case.slots, number, metres, block)
    }

    fn tick(&self, metres: f64, tick: &mut i64) -> u64 {
        raw::tick(metres, tick)
    }

    fn floor_tick(&self, metres: f64, tick: &mut i64) -> u64 {
        raw::floor_tick(metres, tick)
    }

    fn metres(&self, tick: i64, metres: &mut f64) -> u64 {
        raw::metres(tick, metres)
    }
}

/// The second reading.
pub struct Reference;

impl Engine for Reference {
    fn read(&self, file: &[u8], lent: &mut Slices, block: &mut usize) -> u64 {
        let read =
            if lent.record.len() < RECORD { Err(SHORT) } else { reference::read(file, &mut lent.columns, &mut lent.rows, &mut lent.slots) };
        written(read.map(record_numbers), &mut lent.record, block)
    }

    fn check(&self, case: &Slices, block: &mut usize) -> u64 {
        written(case_of(case).and_then(|case| reference::check(&case)).map(|()| []), &mut [0; 0], block)
    }

    fn verdict(&self, case: &Slices, verdict: &mut [i64], block: &mut usize) -> u64 {
        let told = case_of(case).and_then(|case| reference::verdict(&case));
        written(told.map(|told| [told.code, told.block as i64, told.count as i64, told.largest]), verdict, block)
    }

    fn zone_table(&self, case: &Slices, marks: &[i64], lines: &mut [i64], block: &mut usize) -> u64 {
        let table = case_of(case).and_then(|case| reference::zone_table(&case, marks));
        let flat =
            |[fresh, salt]: [[i64; 9]; 2]| std::array::from_fn::<i64, 18, _>(|line| if line < 9 { fresh[line] } else { salt[line - 9] });
        written(table.map(flat), lines, block)
    }

    fn report(&self, case: &Slices, number: usize, metres: &mut [f64], block: &mut usize) -> u64 {
        written(case_of(case).and_then(|case| reference::report(&case, number)), metres, block)
    }

    fn balances(&self, case: &Slices) -> Result<Vec<[i64; 2]>, Refusal> {
        reference::balances(&case_of(case)?)
    }

    fn tick(&self, metres: f64, tick: &mut i64) -> u64 {
        put(reference::tick(metres), tick)
    }

    fn floor_tick(&self, metres: f64, tick: &mut i64) -> u64 {
        put(reference::floor_tick(metres), tick)
    }

    fn metres(&self, tick: i64, metres: &mut f64) -> u64 {
        put(reference::metres(tick), metres)
    }
}

/// Which blocks the heads of a block reach, by the second reading: W-207 of document 02.
pub fn reach(case: &Slices, block: usize) -> Result<Vec<bool>, Refusal> {
    reference::reach(&case_of(case)?.record, block)
}

const SHORT: Refusal = Refusal { number: 7, block: 0 };

/// The case as the reference takes it; refused where the record is too short to be one.
fn case_of(case: &Slices) -> Result<reference::Case<'_>, Refusal> {
    let Some(&[columns, rows, layers, delta, fresh_weight, salt_weight, flag, step, tolerance]) = case.record.first_chunk::<RECORD>()
    else {
        return Err(SHORT);
    };
    let record = reference::Record { columns, rows, layers, delta, fresh_weight, salt_weight, flag, step, tolerance };
    Ok(reference::Case { record, columns: &case.columns, rows: &case.rows, slots: &case.slots })
}

fn record_numbers(record: reference::Record) -> [i64; RECORD] {
    let reference::Record { columns, rows, layers, delta, fresh_weight, salt_weight, flag, step, tolerance } = record;
    [columns, rows, layers, delta, fresh_weight, salt_weight, flag, step, tolerance]
}

/// Writes an answer over the front of what is lent for it, and the block. A short slice is 7 after 3 and before all else.
fn written<T: Copy, const NEED: usize>(answer: Result<[T; NEED], Refusal>, lent: &mut [T], block: &mut usize) -> u64 {
    let answer = match answer {
        Err(refusal) if refusal.number == 3 => Err(refusal),
        _ if lent.len() < NEED => Err(SHORT),
        answer => answer,
    };
    *block = answer.as_ref().err().map_or(0, |refusal| refusal.block);
    match answer {
        Ok(numbers) => {
            lent[..NEED].copy_from_slice(&numbers);
            0
        }
        Err(refusal) => refusal.number,
    }
}

/// Writes an answer that is one number.
fn put<T>(answer: Result<T, Refusal>, lent: &mut T) -> u64 {
    match answer {
        Ok(number) => {
            *lent = number;
            0
        }
        Err(refusal) => refusal.number,
    }
}
