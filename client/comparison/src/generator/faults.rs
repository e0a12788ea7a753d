//! Damaged cases: wild numbers and lengths, and chosen faults of which several stand in one case, so that the order of refusals decides.

use caydubeesh::{kind, slot};

use super::asked::{active, asked, wrong_mark};
use super::grid::grid;
use super::limits::end_met;
use super::ranges::{K, LEAKANCE, LEVEL, OF_RECORD, OF_WIDTH};
use super::shapes;
use crate::dice::Dice;
use crate::input::Asked;
use crate::slices::{place, Slices, RECORD, SLOTS};
use crate::FILL;

/// A case with some damages.
pub fn damaged(dice: &mut Dice) -> Asked {
    let shape = shapes::small(dice);
    let case = grid(dice, shape);
    let mut asked = asked(dice, case);
    for _ in 0..=dice.below(3) {
        damage(dice, &mut asked.case, &mut asked.marks);
    }
    asked
}

/// Puts a wild number in some place of a case or its marks, or makes a slice shorter or longer.
pub fn damage(dice: &mut Dice, case: &mut Slices, marks: &mut Vec<i64>) {
    let slice = match dice.below(8) {
        0 => &mut case.record,
        1 => &mut case.columns,
        2 => &mut case.rows,
        3 => marks,
        _ => &mut case.slots,
    };
    if dice.one_in(4) {
        slice.resize(dice.below(slice.len() + 3), FILL);
    } else {
        let index = dice.below(slice.len() + 1);
        set(slice, index, dice.wild());
    }
}

/// Slices of wild numbers alone, some beside a record in range.
pub fn wild(dice: &mut Dice) -> Asked {
    let mut wild = |most: usize| -> Vec<i64> { (0..dice.below(most)).map(|_| dice.wild()).collect() };
    let mut case = Slices { record: wild(RECORD + 2), columns: wild(4), rows: wild(4), slots: wild(70) };
    if dice.one_in(2) {
        case.record = Slices::printed().record;
    }
    asked(dice, case)
}

/// A fault to be put into a case. Some need a block of a certain kind, and change nothing where there is none.
type Fault = fn(&mut Dice, &mut Asked);

/// Faults of the record, the widths and the lengths: 3, 4, 5 and 7.
const OF_GRID: [Fault; 4] = [count, term, width, short_slice];

/// Faults of blocks and of what is asked: 6, 9, 10, 13, 11 and 14.
const OF_BLOCKS: [Fault; 9] = [slot_end, slot_rule, overlap, lateral, leakage, boundary, dry_well, mark, number];

/// A case with several faults, mostly of different blocks.
pub fn several(dice: &mut Dice) -> Asked {
    let shape = [1 + dice.below(3), 1 + dice.below(3), 1 + dice.below(3)];
    let case = grid(dice, shape);
    let mut asked = asked(dice, case);
    for _ in 0..=dice.below(4) {
        let fault = if dice.one_in(8) { dice.pick(&OF_GRID) } else { dice.pick(&OF_BLOCKS) };
        fault(dice, &mut asked);
    }
    asked
}

/// The places of a block's column and row.
fn place_of(case: &Slices, block: usize) -> [usize; 2] {
    let (columns, rows) = (case.columns.len().max(1), case.rows.len().max(1));
    [(block - 1) % columns, (block - 1) / columns % rows]
}

fn is_in_top_layer(case: &Slices, block: usize) -> bool {
    block + case.columns.len() * case.rows.len() > case.blocks()
}

/// Puts a number into its place, if there is one.
fn set(numbers: &mut [i64], index: usize, value: i64) {
    if let Some(number) = numbers.get_mut(index) {
        *number = value;
    }
}

fn count(dice: &mut Dice, asked: &mut Asked) {
    let index = dice.pick(&[place::COLUMNS, place::ROWS, place::LAYERS]);
    let (low, high) = OF_RECORD[index];
    set(&mut asked.case.record, index, dice.pick(&[low - 1, high + 1, high, -high]));
}

fn term(dice: &mut Dice, asked: &mut Asked) {
    let index = dice.pick(&[place::DELTA, place::FRESH_WEIGHT, place::SALT_WEIGHT, place::FLAG, place::STEP, place::TOLERANCE]);
    let (low, high) = OF_RECORD[index];
    set(&mut asked.case.record, index, dice.pick(&[low - 1, high + 1]));
}

fn width(dice: &mut Dice, asked: &mut Asked) {
    let widths = if dice.one_in(2) { &mut asked.case.columns } else { &mut asked.case.rows };
    let index = dice.below(widths.len().max(1));
    set(widths, index, dice.pick(&[OF_WIDTH.0 - 1, OF_WIDTH.1 + 1]));
}

fn short_slice(dice: &mut Dice, asked: &mut Asked) {
    let Asked { case, marks, .. } = asked;
    let slice = match dice.below(5) {
        0 => &mut case.record,
        1 => &mut case.columns,
        2 => &mut case.rows,
        3 => marks,
        _ => &mut case.slots,
    };
    slice.pop();
}

fn slot_end(dice: &mut Dice, asked: &mut Asked) {
    end_met(dice, &mut asked.case);
}

fn slot_rule(dice: &mut Dice, asked: &mut Asked) {
    break_rule(dice, &mut asked.case);
}

/// Breaks a rule between slots that the table of ends does not hold.
pub fn break_rule(dice: &mut Dice, case: &mut Slices) {
    if case.blocks() == 0 {
        return;
    }
    let block = 1 + dice.below(case.blocks());
    let [_, top] = case.span(block);
    match dice.below(7) {
        0 if case.is_active(block) => case.block_mut(block)[slot::K] = 0,
        0 => case.block_mut(block)[1 + dice.below(SLOTS - 1)] = 1,
        1 if is_in_top_layer(case, block) => case.block_mut(block)[slot::LEAKANCE] = 1,
        1 => case.block_mut(block)[slot::RECHARGE] = 1,
        2 => case.set_boundary(block, [kind::SEA, 1, 1]),
        3 => case.set_boundary(block, [dice.pick(&[kind::RIVER, kind::SEA]), 0, dice.from(0, 1)]),
        4 => {
            let closed = dice.pick(&[kind::NONE, kind::FIXED_FRESH, kind::FIXED_SALT, kind::BOTH_FIXED]);
            case.set_boundary(block, [closed, dice.from(-1, 1), dice.from(0, 1)]);
        }
        5 => case.set_well(block, [0, top - 1, top]),
        _ => case.set_well(block, [1, top - dice.from(0, 1), top + dice.from(0, 1)]),
    }
}

/// Lets a block reach above the base of the block above it.
fn overlap(dice: &mut Dice, asked: &mut Asked) {
    let case = &mut asked.case;
    let Some(lower) = active(dice, case).filter(|&block| !is_in_top_layer(case, block)) else {
        return;
    };
    let [base, _] = case.span(lower);
    let [above, _] = case.span(lower + case.columns.len() * case.rows.len());
    case.block_mut(lower)[slot::THICKNESS] = (above - base + dice.from(1, 50)).clamp(1, LEVEL);
}

/// Two neighbours along a row with the greatest K, in narrow columns and a wide row.
fn lateral(dice: &mut Dice, asked: &mut Asked) {
    let case = &mut asked.case;
    let Some(block) = active(dice, case) else {
        return;
    };
    let [column, row] = place_of(case, block);
    if column + 1 >= case.columns.len() || block == case.blocks() || !case.is_active(block + 1) {
        return;
    }
    case.columns[column..=column + 1].fill(OF_WIDTH.0);
    set(&mut case.rows, row, OF_WIDTH.1);
    case.block_mut(block)[slot::K] = K;
    case.block_mut(block + 1)[slot::K] = K;
}

/// A block with the greatest leakance to the block above, on a large area.
fn leakage(dice: &mut Dice, asked: &mut Asked) {
    let case = &mut asked.case;
    if let Some(block) = wide_block(dice, case).filter(|&block| !is_in_top_layer(case, block)) {
        case.block_mut(block)[slot::LEAKANCE] = LEAKANCE;
    }
}

/// A river with the greatest leakance, on a large area.
fn boundary(dice: &mut Dice, asked: &mut Asked) {
    let case = &mut asked.case;
    if let Some(block) = wide_block(dice, case).filter(|&block| is_in_top_layer(case, block)) {
        case.set_boundary(block, [kind::RIVER, 0, LEAKANCE]);
    }
}

/// An active block whose column and row are made as wide as can be.
fn wide_block(dice: &mut Dice, case: &mut Slices) -> Option<usize> {
    let block = active(dice, case)?;
    let [column, row] = place_of(case, block);
    set(&mut case.columns, column, OF_WIDTH.1);
    set(&mut case.rows, row, OF_WIDTH.1);
    Some(block)
}

/// A well of the top layer in its uppermost tick, above a water table at its base.
fn dry_well(dice: &mut Dice, asked: &mut Asked) {
    let case = &mut asked.case;
    let Some(block) = active(dice, case).filter(|&block| is_in_top_layer(case, block)) else {
        return;
    };
    let [base, top] = case.span(block);
    set(&mut case.record, place::FLAG, 1);
    case.set_well(block, [dice.pick(&[1, -1]), top - 1, top]);
    case.block_mut(block)[slot::NEW_FRESH] = base;
}

fn mark(dice: &mut Dice, asked: &mut Asked) {
    wrong_mark(dice, &mut asked.marks);
}

fn number(dice: &mut Dice, asked: &mut Asked) {
    asked.number = dice.pick(&[0, asked.case.blocks() + 1, usize::MAX]);
}
