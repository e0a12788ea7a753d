//! Document 01, "Refusal numbers": the numbers, and the order in which slices are judged.

use crate::lateral_face::{conductance, face_k, Face};
use crate::leakage_river_and_sea::leakage_conductance;
use crate::units_and_ranges::{
    river_or_sea, slots_in_range, within, Counts, Grid, Site, COUNT_ENDS, DELTA_ENDS, FLAG_ENDS, FLUIDS, FRESH_WEIGHT_ENDS,
    GREATEST_BLOCKS, LAYER_ENDS, LEAST_APART, SALT_WEIGHT_ENDS, SLOTS, STEP_ENDS, TOLERANCE_ENDS, WIDTH_ENDS,
};
use crate::{Case, Record, Refusal};

/// "the file ends where a byte is still needed".
pub(crate) const FILE_ENDS: u64 = 1;
/// "a number is longer than its shortest form, or a fifth byte has its high bit set".
pub(crate) const LONG_FORM: u64 = 2;
/// "a count or the block total is out of range".
pub(crate) const COUNT: u64 = 3;
/// "δ, flag, step or tolerance is out of range"; W-209 of document 02: "4 for a weight or pair out of range".
pub(crate) const RECORD: u64 = 4;
/// "a width is out of range".
pub(crate) const WIDTH: u64 = 5;
/// "a slot is out of range".
pub(crate) const SLOT: u64 = 6;
/// "a lent slice is too short".
pub(crate) const ROOM: u64 = 7;
/// "bytes follow the last block; in the program, before all else, a file above 28,672 bytes".
pub(crate) const BYTES_FOLLOW: u64 = 8;
/// "an active block's top lies above the base of the block directly above it, both active".
pub(crate) const TOP: u64 = 9;
/// "a conductance of either fluid exceeds 268,435,456".
pub(crate) const CONDUCTANCE: u64 = 10;
/// "a mark is neither 0 nor 1".
pub(crate) const MARK: u64 = 11;
/// "a double is no number, infinite, or its tick outside ±4,194,304, or above 0 for a sea floor".
pub(crate) const DOUBLE: u64 = 12;
/// "a table is asked for with a dry well".
pub(crate) const DRY_WELL: u64 = 13;
/// "a report names no active block".
pub(crate) const NO_BLOCK: u64 = 14;

/// Litres a day for a metre of head.
const GREATEST_CONDUCTANCE: i64 = 268_435_456;

/// A refusal where something does not hold. "Others name 0."
pub(crate) fn judge(holds: bool, number: u64, block: usize) -> Result<(), Refusal> {
    if holds {
        Ok(())
    } else {
        Err(Refusal { number, block })
    }
}

/// "3 | a count or the block total is out of range": the total.
pub(crate) fn judge_total(counts: Counts) -> Result<(), Refusal> {
    judge(counts.blocks() <= GREATEST_BLOCKS, COUNT, 0)
}

/// "3 | a count or the block total is out of range".
pub(crate) fn judge_counts(record: &Record) -> Result<Counts, Refusal> {
    judge(within(record.columns, COUNT_ENDS), COUNT, 0)?;
    judge(within(record.rows, COUNT_ENDS), COUNT, 0)?;
    judge(within(record.layers, LAYER_ENDS), COUNT, 0)?;
    let counts = Counts { columns: record.columns as usize, rows: record.rows as usize, layers: record.layers as usize };
    judge_total(counts)?;
    Ok(counts)
}

/// "7 | a lent slice is too short".
pub(crate) fn judge_room(counts: Counts, columns: &[i64], rows: &[i64], slots: &[i64]) -> Result<(), Refusal> {
    let room = columns.len() >= counts.columns && rows.len() >= counts.rows && slots.len() >= SLOTS * counts.blocks();
    judge(room, ROOM, 0)
}

/// W-209 of document 02: "fresh weight 990..=1,010 and salt weight 1,011..=1,050, at least 5 apart". The weights are in their ranges.
pub(crate) fn judge_pair(fresh: i64, salt: i64) -> Result<(), Refusal> {
    judge(salt - fresh >= LEAST_APART, RECORD, 0)
}

/// W-209: "4 for a weight or pair out of range, or in slices a weight other than 0 beside a whole δ, judged right after δ".
fn judge_weights(record: &Record) -> Result<(), Refusal> {
    let Some((fresh, salt)) = record.weights() else {
        return judge(record.fresh_weight == 0 && record.salt_weight == 0, RECORD, 0);
    };
    judge(within(fresh, FRESH_WEIGHT_ENDS), RECORD, 0)?;
    judge(within(salt, SALT_WEIGHT_ENDS), RECORD, 0)?;
    judge_pair(fresh, salt)
}

/// "4 | δ, flag, step or tolerance is out of range".
fn judge_record(record: &Record) -> Result<(), Refusal> {
    judge(record.delta == 0 || within(record.delta, DELTA_ENDS), RECORD, 0)?;
    judge_weights(record)?;
    judge(within(record.flag, FLAG_ENDS), RECORD, 0)?;
    judge(within(record.step, STEP_ENDS), RECORD, 0)?;
    judge(within(record.tolerance, TOLERANCE_ENDS), RECORD, 0)
}

/// "5 | a width is out of range".
fn judge_widths(widths: &[i64]) -> Result<(), Refusal> {
    judge(widths.iter().all(|&width| within(width, WIDTH_ENDS)), WIDTH, 0)
}

/// "6 | a slot is out of range".
fn judge_slots(counts: Counts, slots: &[i64]) -> Result<(), Refusal> {
    let blocks = &slots.as_chunks::<SLOTS>().0[..counts.blocks()];
    for (index, slots) in blocks.iter().enumerate() {
        judge(slots_in_range(slots, counts.top_layer(index)), SLOT, index + 1)?;
    }
    Ok(())
}

/// "9 | an active block's top lies above the base of the block directly above it, both active"; "9 the lower one".
pub(crate) fn judge_tops(grid: &Grid) -> Result<(), Refusal> {
    let uppers = &grid.blocks[grid.counts.layer()..];
    for (index, (lower, upper)) in grid.blocks.iter().zip(uppers).enumerate() {
        let apart = lower.aquifer_top() <= upper.base;
        judge(apart || !lower.active() || !upper.active(), TOP, index + 1)?;
    }
    Ok(())
}

/// "lateral ones worked out with the greater aquifer thickness of the two blocks", of either fluid.
fn face_exceeds(grid: &Grid, face: &Face) -> bool {
    let (first, second) = (face.first, face.second());
    let thickness = grid.blocks[first].thickness.max(grid.blocks[second].thickness);
    FLUIDS.into_iter().any(|fluid| {
        let face_k = face_k(face.lengths(), [grid.k[first][fluid], grid.k[second][fluid]]);
        conductance(face_k, thickness, face.across, face.lengths()) > GREATEST_CONDUCTANCE
    })
}

/// "10 counts faces between active blocks to the next column, next row and above, and the boundary".
fn conductance_exceeds(grid: &Grid, site: Site) -> bool {
    let block = &grid.blocks[site.index];
    let leaks_too_much = |leakance: i64| leakage_conductance(leakance, grid.area(site)) > GREATEST_CONDUCTANCE;
    grid.faces(site).iter().flatten().any(|face| face_exceeds(grid, face))
        || (grid.active_above(site.index).is_some() && leaks_too_much(block.leakance))
        || (river_or_sea(block.kind) && leaks_too_much(block.boundary_leakance))
}

/// "10 | a conductance of either fluid exceeds 268,435,456".
pub(crate) fn judge_conductances(grid: &Grid) -> Result<(), Refusal> {
    let mut index = 0;
    for _layer in 0..grid.counts.layers {
        for row in 0..grid.counts.rows {
            for column in 0..grid.counts.columns {
                judge(!conductance_exceeds(grid, Site { index, row, column }), CONDUCTANCE, index + 1)?;
                index += 1;
            }
        }
    }
    Ok(())
}

/// "Slices are judged 3, 7, 4, 5, 6, 9, 10": the grid of a case that passes.
pub(crate) fn judged<'a>(case: &Case<'a>) -> Result<Grid<'a>, Refusal> {
    let counts = judge_counts(&case.record)?;
    judge_room(counts, case.columns, case.rows, case.slots)?;
    judge_record(&case.record)?;
    judge_widths(&case.columns[..counts.columns])?;
    judge_widths(&case.rows[..counts.rows])?;
    judge_slots(counts, case.slots)?;
    let grid = Grid::of(case, counts);
    judge_tops(&grid)?;
    judge_conductances(&grid)?;
    Ok(grid)
}

/// Judges a case in slices, 3 to 10.
pub fn check(case: &Case) -> Result<(), Refusal> {
    judged(case).map(|_| ())
}
