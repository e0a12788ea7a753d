//! Document 01 as plain Rust, one file for each of its headings, and one for a request of document 02 that adds something of its own. The
//! quotes above the functions are their sentences.
//!
//! Any input may come in: ranges are judged before anything is worked out of the numbers, and within them no sum or product
//! reaches 2^57. Arithmetic is that of `i64` with overflow checks on.

#![forbid(unsafe_code)]
#![deny(missing_docs)]

mod balance_verdict_table;
mod case_file;
mod how_far_a_head_reaches;
mod lateral_face;
mod leakage_river_and_sea;
mod metres;
mod numbers_worked_by_hand;
mod one_block;
mod refusal_numbers;
mod units_and_ranges;

pub use balance_verdict_table::{balances, verdict, zone_table};
pub use case_file::read;
pub use how_far_a_head_reaches::reach;
pub use metres::{floor_tick, metres, report, tick};
pub use numbers_worked_by_hand::printed;
pub use refusal_numbers::check;

/// Why there is no answer: the number of the refusal, and the block that it names, counted from 1 (0 for none).
#[derive(Clone, Copy, Debug, PartialEq, Eq)]
pub struct Refusal {
    /// The number in document 01's table, 1 to 14.
    pub number: u64,
    /// The block at fault, or 0.
    pub block: usize,
}

/// The first numbers of a case.
#[derive(Clone, Copy, Debug, PartialEq, Eq)]
pub struct Record {
    /// How many columns there are.
    pub columns: i64,
    /// How many rows there are.
    pub rows: i64,
    /// How many layers there are.
    pub layers: i64,
    /// δ, whole: the weight of fresh water over the difference of the two weights. 0 where the two weights are given.
    pub delta: i64,
    /// The weight of fresh water, grams a litre; 0 where δ is whole.
    pub fresh_weight: i64,
    /// The weight of salt water, grams a litre; 0 where δ is whole.
    pub salt_weight: i64,
    /// 1 where the top layer has a water table, otherwise 0.
    pub flag: i64,
    /// The time step, days.
    pub step: i64,
    /// The tolerance of a balance, litres a day.
    pub tolerance: i64,
}

impl Record {
    /// W-209 of document 02: "A δ of 0 in the case now means that two more numbers follow". Fresh and salt, grams a litre; none of a whole δ,
    /// for which the rules stand as document 01 has them.
    pub(crate) fn weights(&self) -> Option<(i64, i64)> {
        (self.delta == 0).then_some((self.fresh_weight, self.salt_weight))
    }
}

/// A case in slices: widths in metres, sixteen slots to a block. A slice may be too short or have room to spare.
#[derive(Clone, Copy, Debug)]
pub struct Case<'a> {
    /// The first numbers.
    pub record: Record,
    /// Column widths, metres.
    pub columns: &'a [i64],
    /// Row widths, metres.
    pub rows: &'a [i64],
    /// Sixteen slots to a block, in block order.
    pub slots: &'a [i64],
}

/// The verdict on the new heads of a case.
#[derive(Clone, Copy, Debug, PartialEq, Eq)]
pub struct Verdict {
    /// 21 a fixed head moved, 22 a dry well, 23 or 24 a fresh or salt balance beyond the tolerance, 0 accepted.
    pub code: i64,
    /// The first block concerned, counted from 1; 0 if accepted.
    pub block: usize,
    /// How many places fail.
    pub count: usize,
    /// The largest balance without sign among free places, litres a day.
    pub largest: i64,
}
