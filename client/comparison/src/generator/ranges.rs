//! The ends of every range: document 01, "Units and ranges".

use crate::slices::{RECORD, SLOTS};

/// The greatest conductance.
pub const CONDUCTANCE: i64 = 268_435_456;

/// The greatest level or head in ticks, K, leakance, pumpage and tolerance.
pub const LEVEL: i64 = 4_194_304;
pub const K: i64 = 1_000_000;
pub const LEAKANCE: i64 = 1_000_000;
pub const PUMPAGE: i64 = 1_073_741_824;
pub const TOLERANCE: i64 = 1_000_000_000;

/// The ends of the weights of fresh and of salt water, grams a litre, and how far they are apart at least.
pub const OF_WEIGHTS: [(i64, i64); 2] = [(990, 1_010), (1_011, 1_050)];
pub const APART: i64 = 5;

/// The lower and upper end of each number of a record, of a width, and of each slot.
pub const OF_RECORD: [(i64, i64); RECORD] =
    [(1, 64), (1, 64), (1, 8), (1, 100), OF_WEIGHTS[0], OF_WEIGHTS[1], (0, 1), (1, 36_525), (0, TOLERANCE)];
pub const OF_WIDTH: (i64, i64) = (1, 4_096);
pub const OF_SLOT: [(i64, i64); SLOTS] = [
    (0, K),
    (-LEVEL, LEVEL),
    (1, LEVEL),
    (1, 1_000),
    (0, LEAKANCE),
    (0, 1_000_000),
    (-PUMPAGE, PUMPAGE),
    (-LEVEL, 2 * LEVEL),
    (-LEVEL, 2 * LEVEL),
    (0, 5),
    (-LEVEL, LEVEL),
    (0, LEAKANCE),
    (-LEVEL, LEVEL),
    (-LEVEL, LEVEL),
    (-LEVEL, LEVEL),
    (-LEVEL, LEVEL),
];
