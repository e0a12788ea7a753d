//! Document 01, "Units and ranges": the ends of every number, a block's slots, and the order of blocks.

use crate::lateral_face::salt_k;
use crate::{Case, Record};

/// "A tick is 1/4,096 m."
pub(crate) const TICKS_IN_A_METRE: i64 = 4_096;

/// A fluid is an index: into heads, thicknesses, K, balances and rows of a table.
pub(crate) const FRESH: usize = 0;
/// The other fluid.
pub(crate) const SALT: usize = 1;
/// "fresh before salt in one block".
pub(crate) const FLUIDS: [usize; 2] = [FRESH, SALT];

/// The lower and the upper end of a number; both are in its range.
pub(crate) type Ends = (i64, i64);

/// "columns, rows".
pub(crate) const COUNT_ENDS: Ends = (1, 64);
/// "layers".
pub(crate) const LAYER_ENDS: Ends = (1, 8);
/// "blocks at most 512".
pub(crate) const GREATEST_BLOCKS: usize = 512;
/// "δ, whole".
pub(crate) const DELTA_ENDS: Ends = (1, 100);
/// W-209 of document 02: "fresh weight 990..=1,010", grams a litre.
pub(crate) const FRESH_WEIGHT_ENDS: Ends = (990, 1_010);
/// W-209: "salt weight 1,011..=1,050", grams a litre.
pub(crate) const SALT_WEIGHT_ENDS: Ends = (1_011, 1_050);
/// W-209: "at least 5 apart", grams a litre.
pub(crate) const LEAST_APART: i64 = 5;
/// "water-table flag".
pub(crate) const FLAG_ENDS: Ends = (0, 1);
/// "time step, days".
pub(crate) const STEP_ENDS: Ends = (1, 36_525);
/// "tolerance, litres/day".
pub(crate) const TOLERANCE_ENDS: Ends = (0, 1_000_000_000);
/// "column and row widths, m".
pub(crate) const WIDTH_ENDS: Ends = (1, 4_096);
/// "base; heads; river stage", ticks.
pub(crate) const LEVEL_ENDS: Ends = (-4_194_304, 4_194_304);

/// "A block has 16 slots".
pub(crate) const SLOTS: usize = 16;
/// Where the slot of K stands.
pub(crate) const K: usize = 0;
/// Where the slot of the boundary kind stands.
pub(crate) const KIND: usize = 9;
/// Where the slot of stage or floor stands.
pub(crate) const LEVEL: usize = 10;
/// Where the slot of the boundary leakance stands.
pub(crate) const BOUNDARY_LEAKANCE: usize = 11;

/// "The lower and upper end for each slot stand in one fixed table. There screens run from -4,194,304 to 8,388,608, stage or
/// floor over ±4,194,304, and boundary leakance from 0."
pub(crate) const SLOT_ENDS: [Ends; SLOTS] = [
    (0, 1_000_000),                  // K, mm/day
    LEVEL_ENDS,                      // base, ticks
    (1, 4_194_304),                  // thickness, ticks
    (1, 1_000),                      // porosity, per mille
    (0, 1_000_000),                  // leakance to the block above, 10⁻⁶/day
    (0, 1_000_000),                  // recharge, µm/day
    (-1_073_741_824, 1_073_741_824), // pumpage, litres/day, positive is taken out
    (-4_194_304, 8_388_608),         // screen bottom, ticks
    (-4_194_304, 8_388_608),         // screen top, ticks
    (0, 5),                          // boundary kind
    LEVEL_ENDS,                      // stage or floor, ticks
    (0, 1_000_000),                  // boundary leakance, 10⁻⁶/day
    LEVEL_ENDS,                      // old fresh head, ticks
    LEVEL_ENDS,                      // old salt head, ticks
    LEVEL_ENDS,                      // new fresh head, ticks
    LEVEL_ENDS,                      // new salt head, ticks
];

/// "0 none, 1 river, 2 sea, 3 fixed fresh, 4 fixed salt, 5 both fixed".
pub(crate) const RIVER: i64 = 1;
/// A sea.
pub(crate) const SEA: i64 = 2;
/// The fresh head is fixed.
pub(crate) const FIXED_FRESH: i64 = 3;
/// The salt head is fixed.
pub(crate) const FIXED_SALT: i64 = 4;
/// Both heads are fixed.
pub(crate) const BOTH_FIXED: i64 = 5;

/// "Floor means toward minus infinity". Every divisor in document 01 is above 0.
pub(crate) fn floor(dividend: i64, divisor: i64) -> i64 {
    dividend.div_euclid(divisor)
}

/// "cut means toward zero."
pub(crate) fn cut(dividend: i64, divisor: i64) -> i64 {
    dividend / divisor
}

/// W-206 of document 02: "rounded to the nearest litre, halves away from zero".
pub(crate) fn nearest(dividend: i64, divisor: i64) -> i64 {
    let size = (2 * dividend.abs() + divisor) / (2 * divisor);
    if dividend < 0 {
        -size
    } else {
        size
    }
}

/// Whether a number is in its range.
pub(crate) fn within(number: i64, (lower, upper): Ends) -> bool {
    (lower..=upper).contains(&number)
}

/// "Kinds 1 and 2": a river or a sea.
pub(crate) fn river_or_sea(kind: i64) -> bool {
    kind == RIVER || kind == SEA
}

/// "3 fixed fresh, 4 fixed salt, 5 both fixed": whether the head of this fluid is fixed. Otherwise it is free.
pub(crate) fn fixed(kind: i64, fluid: usize) -> bool {
    kind == BOTH_FIXED || kind == [FIXED_FRESH, FIXED_SALT][fluid]
}

/// "A block has 16 slots: K, base, thickness, porosity, leakance, recharge, pumpage, screen bottom, screen top, kind, stage or
/// floor, boundary leakance, old fresh, old salt, new fresh, new salt."
pub(crate) struct Block {
    /// mm/day; "0 is inactive".
    pub k: i64,
    /// Ticks.
    pub base: i64,
    /// Of the aquifer, ticks.
    pub thickness: i64,
    /// Per mille.
    pub porosity: i64,
    /// To the block above, 10⁻⁶/day.
    pub leakance: i64,
    /// µm/day.
    pub recharge: i64,
    /// Litres/day, positive is taken out.
    pub pumpage: i64,
    /// Ticks.
    pub screen_bottom: i64,
    /// Ticks.
    pub screen_top: i64,
    /// Of the boundary, 0 to 5.
    pub kind: i64,
    /// Stage of a river or floor of a sea, ticks.
    pub level: i64,
    /// 10⁻⁶/day.
    pub boundary_leakance: i64,
    /// By fluid, ticks.
    pub old_heads: [i64; 2],
    /// By fluid, ticks.
    pub new_heads: [i64; 2],
}

impl Block {
    /// The slots by their names.
    pub fn of(slots: &[i64; SLOTS]) -> Block {
        let [k, base, thickness, porosity, leakance, recharge, pumpage, screen_bottom, screen_top, kind, level, boundary_leakance, ..] =
            *slots;
        let [.., old_fresh, old_salt, new_fresh, new_salt] = *slots;
        Block {
            k,
            base,
            thickness,
            porosity,
            leakance,
            recharge,
            pumpage,
            screen_bottom,
            screen_top,
            kind,
            level,
            boundary_leakance,
            old_heads: [old_fresh, old_salt],
            new_heads: [new_fresh, new_salt],
        }
    }

    /// "0 is inactive".
    pub fn active(&self) -> bool {
        self.k != 0
    }

    /// "Aquifer top = base + thickness." In ticks.
    pub fn aquifer_top(&self) -> i64 {
        self.base + self.thickness
    }
}

/// "An inactive block has all 16 zero." Any other has each slot between its ends and keeps the remaining rules.
pub(crate) fn slots_in_range(slots: &[i64; SLOTS], top_layer: bool) -> bool {
    if slots[K] == 0 {
        return slots.iter().all(|&number| number == 0);
    }
    slots.iter().zip(SLOT_ENDS).all(|(&number, ends)| within(number, ends)) && remaining_rules(&Block::of(slots), top_layer)
}

/// "a block's remaining slot rules (screens, kind, layer)", of an active block whose slots are between their ends.
/// "leakance to the block above .. 0 in the top layer"; "recharge .. 0 below the top layer".
pub(crate) fn remaining_rules(block: &Block, top_layer: bool) -> bool {
    let layer_rule = if top_layer { block.leakance == 0 } else { block.recharge == 0 };
    layer_rule && screens_in_range(block) && boundary_in_range(block, top_layer)
}

/// "base ≤ bottom < top ≤ aquifer top; both 0 if pumpage is 0".
fn screens_in_range(block: &Block) -> bool {
    if block.pumpage == 0 {
        return block.screen_bottom == 0 && block.screen_top == 0;
    }
    block.base <= block.screen_bottom && block.screen_bottom < block.screen_top && block.screen_top <= block.aquifer_top()
}

/// "Kinds 1 and 2 occur only in the top layer."; "Kinds other than 1 and 2 have zero in their two boundary slots."; "sea floor |
/// -4,194,304..=0"; "boundary leakance | 1..=1,000,000". A stage has the whole range of its slot.
fn boundary_in_range(block: &Block, top_layer: bool) -> bool {
    if !river_or_sea(block.kind) {
        return block.level == 0 && block.boundary_leakance == 0;
    }
    top_layer && block.boundary_leakance >= 1 && (block.kind == RIVER || block.level <= 0)
}

/// How many columns, rows and layers there are, each in its range.
#[derive(Clone, Copy)]
pub(crate) struct Counts {
    pub columns: usize,
    pub rows: usize,
    pub layers: usize,
}

impl Counts {
    /// How many blocks one layer has.
    pub fn layer(&self) -> usize {
        self.columns * self.rows
    }

    /// How many blocks there are.
    pub fn blocks(&self) -> usize {
        self.layer() * self.layers
    }

    /// Whether the block at this index is in the top layer: "Layer 1 is the deepest."
    pub fn top_layer(&self, index: usize) -> bool {
        index >= self.blocks() - self.layer()
    }
}

/// Where a block is, all counted from 0. "Blocks are numbered from 1, by layer, then row, then column.": its number is
/// `index + 1`.
#[derive(Clone, Copy)]
pub(crate) struct Site {
    pub index: usize,
    pub row: usize,
    pub column: usize,
}

/// A case whose counts, lengths, record, widths and slots have been judged.
pub(crate) struct Grid<'a> {
    pub record: Record,
    pub counts: Counts,
    /// Metres, one for each column.
    pub column_widths: &'a [i64],
    /// Metres, one for each row.
    pub row_widths: &'a [i64],
    /// In block order.
    pub blocks: Vec<Block>,
    /// By block and fluid, mm/day.
    pub k: Vec<[i64; 2]>,
}

impl<'a> Grid<'a> {
    /// The grid of a case that has been judged as far as 6.
    pub fn of(case: &Case<'a>, counts: Counts) -> Grid<'a> {
        let slots = case.slots.as_chunks::<SLOTS>().0;
        let blocks: Vec<Block> = slots[..counts.blocks()].iter().map(Block::of).collect();
        Grid {
            record: case.record,
            counts,
            column_widths: &case.columns[..counts.columns],
            row_widths: &case.rows[..counts.rows],
            k: blocks.iter().map(|block| [block.k, salt_k(&case.record, block.k)]).collect(),
            blocks,
        }
    }

    /// The area of a block, square metres.
    pub fn area(&self, site: Site) -> i64 {
        self.column_widths[site.column] * self.row_widths[site.row]
    }

    /// "in the top layer with flag 1".
    pub fn water_table(&self, index: usize) -> bool {
        self.record.flag == 1 && self.counts.top_layer(index)
    }

    /// "a block and the one directly above, both active": the index of the one above.
    pub fn active_above(&self, index: usize) -> Option<usize> {
        let above = index + self.counts.layer();
        let joined = !self.counts.top_layer(index) && self.blocks[index].active() && self.blocks[above].active();
        joined.then_some(above)
    }
}
