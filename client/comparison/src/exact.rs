//! Flows of fresh water before they are rounded, in parts of 1/4,096 litre a day, where document 01 says them in a line. By these the tests see which
//! flows are halves, and make engines that round otherwise.

use caydubeesh::{kind, slot};

use crate::engines::{Archive, Engine};
use crate::slices::{place, Slices};

/// In one litre, and in one metre.
pub const PARTS: i64 = 4_096;

/// Fresh and salt thickness of a block in ticks, as the archive reports them; none of an inactive one.
pub fn thickness(case: &Slices, block: usize) -> Option<[i64; 2]> {
    let mut metres = [0.0; 5];
    let refusal = Archive.report(case, block, &mut metres, &mut 0);
    (refusal == 0).then_some([metres[3], metres[4]].map(|thickness| (thickness * PARTS as f64) as i64))
}

/// How many columns and rows there are; slices may be longer.
fn columns_and_rows(case: &Slices) -> [usize; 2] {
    [place::COLUMNS, place::ROWS].map(|count| case.record[count] as usize)
}

/// The column and the row of a block, counted from 0.
fn column_and_row(case: &Slices, block: usize) -> [usize; 2] {
    let [columns, rows] = columns_and_rows(case);
    [(block - 1) % columns, (block - 1) / columns % rows]
}

/// The flow for a leakance over a block's area.
fn over_area(case: &Slices, block: usize, leakance: i64, difference: i64) -> i64 {
    let [column, row] = column_and_row(case, block);
    leakance * (case.columns[column] * case.rows[row]) / 1_000 * difference
}

/// Through the face to the next block of the row (axis 0) or the column (axis 1), above 0 into that block: where both hold fresh water and have
/// one K.
pub fn lateral(case: &Slices, block: usize, axis: usize) -> Option<i64> {
    let (counts, at) = (columns_and_rows(case), column_and_row(case, block));
    let (widths, across, stride) =
        if axis == 0 { (&case.columns, case.rows[at[1]], 1) } else { (&case.rows, case.columns[at[0]], counts[0]) };
    let [width, next_width] = [widths[at[axis]], *widths[..counts[axis]].get(at[axis] + 1)?];
    let (this, next) = (case.block(block), case.block(block + stride));
    let [fresh, next_fresh] = [thickness(case, block)?[0], thickness(case, block + stride)?[0]];
    let conductance = 2 * this[slot::K] * ((fresh + next_fresh) / 2) * across / ((width + next_width) * PARTS);
    let is_simple = this[slot::K] == next[slot::K] && fresh > 0 && next_fresh > 0;
    is_simple.then_some(conductance * (this[slot::NEW_FRESH] - next[slot::NEW_FRESH]))
}

/// To the block above, above 0 upward: where both hold fresh water, and the upper one no salt water.
pub fn leakage(case: &Slices, block: usize) -> Option<i64> {
    let above = block + columns_and_rows(case).iter().product::<usize>();
    let is_simple = above <= case.blocks() && thickness(case, block)?[0] > 0 && matches!(thickness(case, above)?, [fresh, 0] if fresh > 0);
    is_simple.then(|| {
        let this = case.block(block);
        over_area(case, block, this[slot::LEAKANCE], this[slot::NEW_FRESH] - case.block(above)[slot::NEW_FRESH])
    })
}

/// From a river, above 0 into its block: where fresh water is on top.
pub fn river(case: &Slices, block: usize) -> Option<i64> {
    let this = case.block(block);
    let is_below_top = case.record[place::FLAG] == 1 && this[slot::NEW_FRESH] < case.span(block)[1];
    let is_simple = this[slot::KIND] == kind::RIVER && !is_below_top && thickness(case, block)?[0] > 0;
    is_simple.then(|| over_area(case, block, this[slot::BOUNDARY_LEAKANCE], this[slot::LEVEL] - this[slot::NEW_FRESH]))
}

/// Whether a flow is exactly half a litre beyond a whole number.
pub fn is_half(parts: i64) -> bool {
    parts.rem_euclid(PARTS) == PARTS / 2
}
