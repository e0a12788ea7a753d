//! Document 01, "Metres".

use crate::one_block::{interface, levels};
use crate::refusal_numbers::{judge, judged, DOUBLE, NO_BLOCK};
use crate::units_and_ranges::{FRESH, LEVEL_ENDS, SALT, TICKS_IN_A_METRE};
use crate::{Case, Refusal};

/// Below this a whole number without its sign is exact as a double.
const EXACT: u64 = 1 << 53;

/// The tick of a level in metres. "A double becomes the nearest tick, halves to the even one."; "12 | a double is no number, infinite, or
/// its tick outside ±4,194,304". The product is exact or infinite.
pub fn tick(metres: f64) -> Result<i64, Refusal> {
    let nearest = (metres * TICKS_IN_A_METRE as f64).round_ties_even();
    let (lower, upper) = LEVEL_ENDS;
    judge((lower as f64..=upper as f64).contains(&nearest), DOUBLE, 0)?;
    Ok(nearest as i64)
}

/// The tick of a sea floor in metres. "12 | .. or above 0 for a sea floor".
pub fn floor_tick(metres: f64) -> Result<i64, Refusal> {
    let tick = tick(metres)?;
    judge(tick <= 0, DOUBLE, 0)?;
    Ok(tick)
}

/// "A tick value is shown in metres as an exact double". A tick of 2^53 or more without its sign is refused with 12.
pub fn metres(tick: i64) -> Result<f64, Refusal> {
    judge(tick.unsigned_abs() < EXACT, DOUBLE, 0)?;
    Ok(tick as f64 / TICKS_IN_A_METRE as f64)
}

/// Fresh head, salt head, interface, fresh thickness and salt thickness of a block in metres. "A block's report gives both heads, interface
/// and both thicknesses in metres, from new heads, the interface being ζ."; "14 | a report names no active block".
pub fn report(case: &Case, number: usize) -> Result<[f64; 5], Refusal> {
    let grid = judged(case)?;
    let no_block = Refusal { number: NO_BLOCK, block: number };
    let index = number.checked_sub(1).ok_or(no_block)?;
    let block = grid.blocks.get(index).filter(|block| block.active()).ok_or(no_block)?;
    let levels = levels(&grid.record, block, grid.water_table(index), block.new_heads);
    let [fresh_thickness, salt_thickness] = levels.thickness;
    Ok([
        metres(block.new_heads[FRESH])?,
        metres(block.new_heads[SALT])?,
        metres(interface(&grid.record, block.new_heads))?,
        metres(fresh_thickness)?,
        metres(salt_thickness)?,
    ])
}
