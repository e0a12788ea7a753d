//! Document 01, "One block", with W-209 of document 02.

use crate::units_and_ranges::{cut, floor, Block, FLUIDS, FRESH, SALT, TICKS_IN_A_METRE};
use crate::Record;

/// "ζ = (1+δ)Φs - δΦf"; W-209: "ζ is floor((salt·Φs - fresh·Φf)/(salt - fresh))". In ticks; it may lie far outside the aquifer.
pub(crate) fn interface(record: &Record, heads: [i64; 2]) -> i64 {
    match record.weights() {
        None => (1 + record.delta) * heads[SALT] - record.delta * heads[FRESH],
        Some((fresh, salt)) => floor(salt * heads[SALT] - fresh * heads[FRESH], salt - fresh),
    }
}

/// "Saturated top U = aquifer top; in the top layer with flag 1 it is the lesser of aquifer top and Φf, but never below base." In ticks.
pub(crate) fn saturated_top(block: &Block, water_table: bool, heads: [i64; 2]) -> i64 {
    if water_table {
        block.aquifer_top().min(heads[FRESH]).max(block.base)
    } else {
        block.aquifer_top()
    }
}

/// Where the two fluids of a block end, in ticks. An inactive block has 0 everywhere.
#[derive(Clone, Copy, Default)]
pub(crate) struct Levels {
    /// U.
    pub saturated_top: i64,
    /// Z, the interface as far as it lies between base and U.
    pub held_interface: i64,
    /// Bf and Bs, by fluid.
    pub thickness: [i64; 2],
}

/// "Z is ζ held between base and U. Fresh thickness Bf = U - Z, salt thickness Bs = Z - base."
pub(crate) fn levels(record: &Record, block: &Block, water_table: bool, heads: [i64; 2]) -> Levels {
    let saturated_top = saturated_top(block, water_table, heads);
    let held_interface = interface(record, heads).clamp(block.base, saturated_top);
    Levels { saturated_top, held_interface, thickness: [saturated_top - held_interface, held_interface - block.base] }
}

/// "Volume of a fluid = floor(porosity·area·B / 4,096) litres." Porosity in per mille, area in square
/// metres, B in ticks.
pub(crate) fn volume(porosity: i64, area: i64, thickness: i64) -> i64 {
    floor(porosity * area * thickness, TICKS_IN_A_METRE)
}

/// "Storage rate = cut((new volume - old volume) / step)." Litres, days; litres a day.
pub(crate) fn storage_rate(new_volume: i64, old_volume: i64, step: i64) -> i64 {
    cut(new_volume - old_volume, step)
}

/// The storage rates of a block by fluid, litres a day. "Only old volumes and code 21 use old heads."
pub(crate) fn storage(record: &Record, block: &Block, area: i64, water_table: bool, new: &Levels) -> [i64; 2] {
    let old = levels(record, block, water_table, block.old_heads);
    FLUIDS.map(|fluid| {
        let new_volume = volume(block.porosity, area, new.thickness[fluid]);
        let old_volume = volume(block.porosity, area, old.thickness[fluid]);
        storage_rate(new_volume, old_volume, record.step)
    })
}
