//! Document 01, "Leakage, river and sea", with W-201, W-206 and W-209 of document 02.

use crate::lateral_face::flow;
use crate::one_block::Levels;
use crate::units_and_ranges::{cut, floor, river_or_sea, Block, Grid, Site, FRESH, SALT, SEA};
use crate::Record;

/// "The fresh equivalent of a salt head at level z is floor(((δ+1)Φs - z)/δ)."; W-209: "the fresh equivalent is floor((salt·Φs - (salt -
/// fresh)·z)/fresh)". All in ticks.
pub(crate) fn fresh_equivalent(record: &Record, salt_head: i64, level: i64) -> i64 {
    match record.weights() {
        None => floor((record.delta + 1) * salt_head - level, record.delta),
        Some((fresh, salt)) => floor(salt * salt_head - (salt - fresh) * level, fresh),
    }
}

/// "Fluid of the lower block: fresh if its Bf > 0, else salt."
fn fluid_at_top(levels: &Levels) -> usize {
    if levels.thickness[FRESH] > 0 {
        FRESH
    } else {
        SALT
    }
}

/// "Fluid of the upper: salt if its Bs > 0, else fresh."
fn fluid_at_base(levels: &Levels) -> usize {
    if levels.thickness[SALT] > 0 {
        SALT
    } else {
        FRESH
    }
}

/// "a river or sea exchanges the block's upper fluid (fresh if Bf > 0, else salt)". W-201: "From now on inflow through a sea boundary always
/// enters the block's salt balance and the salt row's boundary line; outflow stays the uppermost fluid. Rivers do not change." Whole litres a
/// day, above 0 into the block.
fn boundary_fluid(kind: i64, upper_fluid: usize, litres: i64) -> usize {
    if kind == SEA && litres > 0 {
        SALT
    } else {
        upper_fluid
    }
}

/// "the fresh head and the fresh equivalent of the salt one", in ticks: the head of a fluid at a level as one of fresh water.
fn head_as_fresh(record: &Record, block: &Block, fluid: usize, level: i64) -> i64 {
    if fluid == FRESH {
        block.new_heads[FRESH]
    } else {
        fresh_equivalent(record, block.new_heads[SALT], level)
    }
}

/// "C = floor(leakance·area/1,000)", for a river or sea "by the same C". Leakance in 10⁻⁶/day, area in square metres; litres a day for a
/// metre of head.
pub(crate) fn leakage_conductance(leakance: i64, area: i64) -> i64 {
    floor(leakance * area, 1_000)
}

/// What leaks between a block and the one directly above.
pub(crate) struct Leakage {
    /// Litres a day, above 0 upward.
    pub litres: i64,
    /// "the fluid named for the block".
    pub lower_fluid: usize,
    /// The same for the upper block.
    pub upper_fluid: usize,
}

/// "Leakage joins a block and the one directly above, both active."; "Like fluids use their own heads. Unlike fluids use the fresh head
/// and the fresh equivalent of the salt one at the lower block's top."; "flow = cut(C·difference/4,096).", with W-206 rounded; "None leaves a
/// block with both thicknesses 0." `above` is the index of the upper block.
pub(crate) fn leakage(grid: &Grid, levels: &[Levels], site: Site, above: usize) -> Leakage {
    let (lower, upper) = (&grid.blocks[site.index], &grid.blocks[above]);
    let lower_fluid = fluid_at_top(&levels[site.index]);
    let upper_fluid = fluid_at_base(&levels[above]);
    let difference = if lower_fluid == upper_fluid {
        lower.new_heads[lower_fluid] - upper.new_heads[upper_fluid]
    } else {
        let top = lower.aquifer_top();
        head_as_fresh(&grid.record, lower, lower_fluid, top) - head_as_fresh(&grid.record, upper, upper_fluid, top)
    };
    let litres = flow(leakage_conductance(lower.leakance, grid.area(site)), difference);
    let left = if litres > 0 { site.index } else { above };
    let litres = if levels[left].thickness == [0, 0] { 0 } else { litres };
    Leakage { litres, lower_fluid, upper_fluid }
}

/// "In the top layer with flag 1 and Φf below the aquifer top".
fn below_top(block: &Block, water_table: bool) -> bool {
    water_table && block.new_heads[FRESH] < block.aquifer_top()
}

/// "recharge enters as fresh water, floor(rate·area/1,000)"; "Otherwise there is no recharge". By fluid: the rate in µm/day, the area in
/// square metres; litres a day.
pub(crate) fn recharge(block: &Block, area: i64, water_table: bool) -> [i64; 2] {
    let mut litres = [0; 2];
    if below_top(block, water_table) {
        litres[FRESH] = floor(block.recharge * area, 1_000);
    }
    litres
}

/// "for a sea it is the depth (minus the sea floor's level) divided by δ, with floor."; W-209: "the sea's head is its depth times (salt -
/// fresh), divided by fresh, with floor". In ticks.
pub(crate) fn sea_head(record: &Record, sea_floor: i64) -> i64 {
    match record.weights() {
        None => floor(-sea_floor, record.delta),
        Some((fresh, salt)) => floor(-sea_floor * (salt - fresh), fresh),
    }
}

/// "rivers and seas exchange nothing. Otherwise .. a river or sea exchanges the block's upper fluid .., by the same C and flow rule,
/// difference = boundary head less Φf, or less the fresh equivalent at the aquifer top. The boundary head is the stage". By fluid, litres
/// a day, above 0 into the block. The area in square metres.
pub(crate) fn boundary(record: &Record, block: &Block, levels: &Levels, area: i64, water_table: bool) -> [i64; 2] {
    let mut litres = [0; 2];
    if !river_or_sea(block.kind) || below_top(block, water_table) {
        return litres;
    }
    let boundary_head = if block.kind == SEA { sea_head(record, block.level) } else { block.level };
    let upper_fluid = fluid_at_top(levels);
    let difference = boundary_head - head_as_fresh(record, block, upper_fluid, block.aquifer_top());
    let exchanged = flow(leakage_conductance(block.boundary_leakance, area), difference);
    litres[boundary_fluid(block.kind, upper_fluid, exchanged)] = exchanged;
    litres
}

/// "the screen's lengths inside fresh [Z, U] and salt [base, Z] are counted." By fluid, ticks.
fn screen_lengths(block: &Block, levels: &Levels) -> [i64; 2] {
    let inside = |bottom: i64, top: i64| (block.screen_top.min(top) - block.screen_bottom.max(bottom)).max(0);
    [inside(levels.held_interface, levels.saturated_top), inside(block.base, levels.held_interface)]
}

/// "Pumpage other than 0 with wetted length 0 is a dry well."
pub(crate) fn dry_well(block: &Block, levels: &Levels) -> bool {
    block.pumpage != 0 && screen_lengths(block, levels) == [0, 0]
}

/// "Fresh share = cut(pumpage·fresh length/wetted length), salt the remainder; both 0 for pumpage 0." Litres a day, lengths by fluid in
/// ticks. With wetted length 0 nothing is shared: pumpage is 0 there, as no share of a dry well is asked for.
pub(crate) fn shares(pumpage: i64, lengths: [i64; 2]) -> [i64; 2] {
    let wetted_length = lengths[FRESH] + lengths[SALT];
    if wetted_length == 0 {
        return [0, 0];
    }
    let fresh_share = cut(pumpage * lengths[FRESH], wetted_length);
    [fresh_share, pumpage - fresh_share]
}

/// What a block's well takes, by fluid, litres a day.
pub(crate) fn wells(block: &Block, levels: &Levels) -> [i64; 2] {
    shares(block.pumpage, screen_lengths(block, levels))
}
