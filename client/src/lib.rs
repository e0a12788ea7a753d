//! Caydubeesh for Rust: a check and a water budget for island aquifers in which fresh water floats on salt water. The functions are those of the proved
//! crate `client` behind slices and structs. docs/CASES.md says what a case is, docs/REFUSALS.md what each refusal and code means.
//!
//! A tick is 1/4,096 m; levels and heads are in ticks. Flows, pumpage, the tolerance and the lines of a table are in litres a day. A case is a [`Record`],
//! the widths of its columns and of its rows in metres, and [`SLOTS`] numbers to a block:
//!
//! | slot | number | range |
//! |---|---|---|
//! | 0 | K, mm/day | 1 to 1,000,000; 0 is inactive, and then all sixteen are 0 |
//! | 1 | base, ticks | ±4,194,304 |
//! | 2 | thickness, ticks | 1 to 4,194,304 |
//! | 3 | porosity, per mille | 1 to 1,000 |
//! | 4 | leakance to the block above, 10⁻⁶/day | 0 to 1,000,000; 0 in the top layer |
//! | 5 | recharge, µm/day | 0 to 1,000,000; 0 below the top layer |
//! | 6 | pumpage, litres a day, positive is taken out | ±1,073,741,824 |
//! | 7, 8 | screen bottom, screen top, ticks | base ≤ bottom < top ≤ base + thickness; both 0 if pumpage is 0 |
//! | 9 | boundary kind | 0 none, 1 river, 2 sea, 3 fixed fresh, 4 fixed salt, 5 both fixed; 1 and 2 in the top layer only |
//! | 10 | river stage or sea floor, ticks | ±4,194,304, a sea floor not above 0; 0 for other kinds |
//! | 11 | boundary leakance, 10⁻⁶/day | 1 to 1,000,000; 0 for other kinds |
//! | 12, 13 | old fresh head, old salt head, ticks | ±4,194,304 |
//! | 14, 15 | new fresh head, new salt head, ticks | ±4,194,304 |
//!
//! Blocks are counted from 1, by layer, then row, then column; layer 1 is the deepest.
//!
//! Any numbers and any lengths may come in: what is out of range or too short is refused, and a refusal changes nothing that was lent.
//!
//! ```
//! // Two blocks of fresh water. The heads of the first are fixed; a well takes 150 litres a day from the second.
//! let record = caydubeesh::Record { columns: 2, rows: 1, layers: 1, delta: 40, fresh_weight: 0, salt_weight: 0, flag: 0, step: 30, tolerance: 5 };
//! let slots = [
//!     10_000, -204_800, 245_760, 200, 0, 0, 0, 0, 0, 5, 0, 0, 8_192, 0, 8_192, 0,
//!     10_000, -204_800, 245_760, 200, 0, 0, 150, -4_096, 4_096, 0, 0, 0, 8_191, 0, 8_191, 0,
//! ];
//! let case = caydubeesh::Case { record, columns: vec![100, 100], rows: vec![100], slots: slots.to_vec() };
//! let verdict = case.verdict()?;
//! assert!(verdict.is_accepted());
//! assert_eq!(verdict.largest, 4);
//! # Ok::<(), caydubeesh::Refusal>(())
//! ```

#![deny(missing_docs)]
#![deny(unsafe_code)]

mod case;
mod names;
#[allow(unsafe_code)]
pub mod raw;

use std::error::Error;
use std::fmt;

pub use case::{Case, Place};
pub use names::{code, kind, refused, slot};

/// Numbers of a record.
pub const RECORD: usize = 9;

/// Slots of a block.
pub const SLOTS: usize = 16;

/// The most columns, and the most rows.
pub const WIDTHS: usize = 64;

/// The most blocks.
pub const BLOCKS: usize = 512;

/// The first numbers of a case. Either δ is whole and both weights are 0, or δ is 0 and both weights are given.
#[derive(Clone, Copy, Debug, PartialEq, Eq)]
pub struct Record {
    /// Columns, 1 to 64.
    pub columns: i64,
    /// Rows, 1 to 64.
    pub rows: i64,
    /// Layers, 1 to 8, and at most 512 blocks in all.
    pub layers: i64,
    /// δ, the weight of fresh water over the difference of both weights, 1 to 100; 0 where the two weights are given.
    pub delta: i64,
    /// The weight of fresh water in grams a litre, 990 to 1,010; 0 where δ is whole.
    pub fresh_weight: i64,
    /// The weight of salt water in grams a litre, 1,011 to 1,050 and at least 5 above that of fresh water; 0 where δ is whole.
    pub salt_weight: i64,
    /// The water-table flag, 0 or 1.
    pub flag: i64,
    /// The time step in days, 1 to 36,525.
    pub step: i64,
    /// The tolerance in litres a day, 0 to 1,000,000,000.
    pub tolerance: i64,
}

impl Record {
    fn numbers(&self) -> [i64; RECORD] {
        let Record { columns, rows, layers, delta, fresh_weight, salt_weight, flag, step, tolerance } = *self;
        [columns, rows, layers, delta, fresh_weight, salt_weight, flag, step, tolerance]
    }
}

/// Why there is no answer.
#[derive(Clone, Copy, Debug, PartialEq, Eq)]
pub struct Refusal {
    /// The number of the refusal, 1 to 14.
    pub number: u64,
    /// The block that it names, counted from 1; for 14 the number asked for; 0 where it names none.
    pub block: usize,
}

/// What a refusal's number or a verdict's code means, in words; 0 is the code's. client/src/words.def has them all.
pub fn words(number: u64) -> &'static str {
    raw::words(number)
}

/// The version of the library that is linked.
pub fn version() -> &'static str {
    raw::version()
}

impl Refusal {
    /// When this number is given.
    pub fn words(&self) -> &'static str {
        words(self.number)
    }
}

impl fmt::Display for Refusal {
    fn fmt(&self, f: &mut fmt::Formatter<'_>) -> fmt::Result {
        write!(f, "refused {} {}: {}", self.number, self.block, self.words())
    }
}

impl Error for Refusal {}

/// The verdict on the new heads of a case.
#[derive(Clone, Copy, Debug, PartialEq, Eq)]
pub struct Verdict {
    /// 0 accepted; 21 a fixed head moved; 22 a dry well; 23 or 24 a balance beyond the tolerance, in fresh or in salt water.
    pub code: i64,
    /// The first block concerned, counted from 1; 0 if accepted.
    pub block: usize,
    /// How many places fail.
    pub count: usize,
    /// The largest balance without sign among free heads, litres a day; 0 for 21, 22, or with no free place.
    pub largest: i64,
}

impl Verdict {
    /// Whether the heads are accepted.
    pub fn is_accepted(&self) -> bool {
        self.code == code::ACCEPTED
    }

    /// What the code means.
    pub fn words(&self) -> &'static str {
        words(self.code as u64)
    }
}

/// The lines of a zone's water account in one fluid, litres a day. They close: storage + error = edge_in - edge_out + converted + wells + recharge +
/// boundary + supply. What flows from block to block, and to or from a river or sea, is rounded to the nearest litre, halves away from zero; storage
/// rates and well shares are cut toward zero, recharge is rounded down.
#[derive(Clone, Copy, Debug, PartialEq, Eq)]
pub struct Lines {
    /// What the zone's blocks store.
    pub storage: i64,
    /// What comes in through the zone's edge, never negative.
    pub edge_in: i64,
    /// What goes out through the zone's edge, never negative.
    pub edge_out: i64,
    /// What the fluid gains inside the zone by leakage that changes fluid.
    pub converted: i64,
    /// What wells bring, negative where pumped.
    pub wells: i64,
    /// What recharge brings.
    pub recharge: i64,
    /// What rivers and seas bring. What comes in from a sea is salt water, so no sea adds to it in fresh water.
    pub boundary: i64,
    /// What fixed heads bring.
    pub supply: i64,
    /// The sum of the balances of free heads.
    pub error: i64,
}

impl Lines {
    fn of(numbers: [i64; 9]) -> Lines {
        let [storage, edge_in, edge_out, converted, wells, recharge, boundary, supply, error] = numbers;
        Lines { storage, edge_in, edge_out, converted, wells, recharge, boundary, supply, error }
    }
}

impl fmt::Display for Lines {
    /// The nine lines in their order, with a blank between two.
    fn fmt(&self, f: &mut fmt::Formatter<'_>) -> fmt::Result {
        let Lines { storage, edge_in, edge_out, converted, wells, recharge, boundary, supply, error } = self;
        write!(f, "{storage} {edge_in} {edge_out} {converted} {wells} {recharge} {boundary} {supply} {error}")
    }
}

/// The water account of a zone.
#[derive(Clone, Copy, Debug, PartialEq, Eq)]
pub struct Table {
    /// The lines of fresh water.
    pub fresh: Lines,
    /// The lines of salt water.
    pub salt: Lines,
}

/// The report of one block in metres, exact, from its new heads.
#[derive(Clone, Copy, Debug, PartialEq)]
pub struct Report {
    /// Fresh head.
    pub fresh_head: f64,
    /// Salt head.
    pub salt_head: f64,
    /// Interface: (1 + δ) salt head - δ fresh head, of weights the tick at or below (salt weight · salt head - fresh weight · fresh head) / (salt weight -
    /// fresh weight). It may lie outside the aquifer.
    pub interface: f64,
    /// Thickness of the fresh water.
    pub fresh_thickness: f64,
    /// Thickness of the salt water.
    pub salt_thickness: f64,
}

fn answer<T>(number: u64, block: usize, answer: T) -> Result<T, Refusal> {
    match number {
        0 => Ok(answer),
        _ => Err(Refusal { number, block }),
    }
}

/// Judges a case. Refused with the first of 3, 7, 4, 5, 6, 9, 10 that applies.
pub fn check(record: &Record, columns: &[i64], rows: &[i64], slots: &[i64]) -> Result<(), Refusal> {
    let mut block = 0;
    let number = raw::check(&record.numbers(), columns, rows, slots, &mut block);
    answer(number, block, ())
}

/// The verdict on the new heads of a case. Refused as [`check`] refuses.
pub fn verdict(record: &Record, columns: &[i64], rows: &[i64], slots: &[i64]) -> Result<Verdict, Refusal> {
    let (mut numbers, mut block) = ([0; 4], 0);
    let number = raw::verdict(&record.numbers(), columns, rows, slots, &mut numbers, &mut block);
    let [code, first, count, largest] = numbers;
    answer(number, block, Verdict { code, block: first as usize, count: count as usize, largest })
}

/// The water account of a zone: `marks` has a 1 for each block in it and a 0 for each other; all 1 for the whole grid. Refused as [`check`] refuses, with 7
/// for short marks too, then with 11 for another mark, then with 13 for a dry well anywhere in the case.
pub fn zone_table(record: &Record, columns: &[i64], rows: &[i64], slots: &[i64], marks: &[i64]) -> Result<Table, Refusal> {
    let (mut lines, mut block) = ([0; 18], 0);
    let number = raw::zone_table(&record.numbers(), columns, rows, slots, marks, &mut lines, &mut block);
    let fresh = Lines::of(std::array::from_fn(|line| lines[line]));
    let salt = Lines::of(std::array::from_fn(|line| lines[9 + line]));
    answer(number, block, Table { fresh, salt })
}

/// The report of one block by its number, counted from 1. Refused as [`check`] refuses, and then with 14, which names the number asked for.
pub fn report(record: &Record, columns: &[i64], rows: &[i64], slots: &[i64], number: usize) -> Result<Report, Refusal> {
    let (mut metres, mut block) = ([0.0; 5], 0);
    let refused = raw::report(&record.numbers(), columns, rows, slots, number, &mut metres, &mut block);
    let [fresh_head, salt_head, interface, fresh_thickness, salt_thickness] = metres;
    answer(refused, block, Report { fresh_head, salt_head, interface, fresh_thickness, salt_thickness })
}

/// Reads a case file over the front of widths and slots, and gives its record. Refused with one of 1 to 10; room beyond what is needed is not touched.
/// [`Case::read`] lends room enough for any file.
pub fn read(file: &[u8], columns: &mut [i64], rows: &mut [i64], slots: &mut [i64]) -> Result<Record, Refusal> {
    let (mut numbers, mut block) = ([0; RECORD], 0);
    let number = raw::read(file, &mut numbers, columns, rows, slots, &mut block);
    let [columns, rows, layers, delta, fresh_weight, salt_weight, flag, step, tolerance] = numbers;
    answer(number, block, Record { columns, rows, layers, delta, fresh_weight, salt_weight, flag, step, tolerance })
}

/// The tick nearest to a level in metres, halves to the even one. Refused with 12 for what is no number, infinite, or outside ±4,194,304 ticks.
pub fn tick(metres: f64) -> Result<i64, Refusal> {
    let mut tick = 0;
    let number = raw::tick(metres, &mut tick);
    answer(number, 0, tick)
}

/// The same of a sea floor, whose tick is not above 0.
pub fn floor_tick(metres: f64) -> Result<i64, Refusal> {
    let mut tick = 0;
    let number = raw::floor_tick(metres, &mut tick);
    answer(number, 0, tick)
}

/// A tick in metres, exactly. Refused with 12 for a tick of 2⁵³ or more without sign.
pub fn metres(tick: i64) -> Result<f64, Refusal> {
    let mut metres = 0.0;
    let number = raw::metres(tick, &mut metres);
    answer(number, 0, metres)
}
