//! Limits exactly met, and passed by the least that is possible. Where a limit or a balance has to be known for that, the archive is asked: a wrong one
//! then puts the input where the two readings part.

use caydubeesh::{raw, slot};

use super::asked::active;
use super::grid::{gentle_grid, grid};
use super::ranges::{APART, LEVEL, OF_RECORD, OF_SLOT, OF_WEIGHTS, OF_WIDTH, TOLERANCE};
use super::shapes::{self, Shape};
use crate::dice::Dice;
use crate::slices::{place, Slices, SLOTS};

/// A tolerance that equals the largest balance, or is one below it.
pub fn tolerance_met(dice: &mut Dice) -> Slices {
    let shape = shapes::small(dice);
    let mut case = grid(dice, shape).with_record(place::TOLERANCE, 0);
    let (mut verdict, mut block) = ([0; 4], 0);
    raw::verdict(&case.record, &case.columns, &case.rows, &case.slots, &mut verdict, &mut block);
    case.record[place::TOLERANCE] = (verdict[3] - dice.from(0, 1)).clamp(0, TOLERANCE);
    case
}

/// Flows of half a litre beyond a whole number.
pub fn halves_met(dice: &mut Dice) -> Slices {
    let shape = shapes::middle(dice);
    gentle_grid(dice, shape)
}

/// A case with the greatest value in one slot of one block that the check passes, or with one more. A slot that must be 0 there stays so,
/// or is 1.
pub fn slot_met(dice: &mut Dice) -> Slices {
    let shape = shapes::small(dice);
    let mut case = grid(dice, shape);
    let Some(block) = active(dice, &case).filter(|_| passes(&case)) else {
        return case;
    };
    let slot = dice.pick(&[slot::K, slot::THICKNESS, slot::LEAKANCE, slot::BOUNDARY_LEAKANCE]);
    let (mut low, mut beyond) = (case.block(block)[slot], OF_SLOT[slot].1 + 1);
    while low + 1 < beyond {
        let middle = (low + beyond) / 2;
        case.block_mut(block)[slot] = middle;
        if passes(&case) {
            low = middle;
        } else {
            beyond = middle;
        }
    }
    case.block_mut(block)[slot] = low + dice.from(0, 1);
    case
}

fn passes(case: &Slices) -> bool {
    raw::check(&case.record, &case.columns, &case.rows, &case.slots, &mut 0) == 0
}

/// Sets base and thickness of a block, and takes its well away.
pub fn set_span(case: &mut Slices, block: usize, base: i64, thickness: i64) {
    case.set_well(block, [0; 3]);
    case.block_mut(block)[slot::BASE..=slot::THICKNESS].copy_from_slice(&[base, thickness]);
}

/// A block whose top touches the base of the block above it, or lies one tick above it.
pub fn tops_met(dice: &mut Dice) -> Slices {
    let shape = shapes::stack(dice);
    let mut case = grid(dice, shape);
    let a_layer = shape[0] * shape[1];
    for _ in 0..=dice.below(2) {
        let block = 1 + dice.below(a_layer * (shape[2] - 1));
        let ([base, _], [above, _]) = (case.span(block), case.span(block + a_layer));
        let thickness = above - base + dice.from(0, 1);
        if case.is_active(block) && (1..=LEVEL).contains(&thickness) {
            set_span(&mut case, block, base, thickness);
        }
    }
    case
}

/// Some numbers at their ends or one beyond them. Rules between numbers may be broken too.
pub fn ends_met(dice: &mut Dice) -> Slices {
    let shape = shapes::small(dice);
    let mut case = grid(dice, shape);
    for _ in 0..=dice.below(2) {
        end_met(dice, &mut case);
    }
    case
}

/// Puts one number of a case at an end of its range, or one beyond it.
pub fn end_met(dice: &mut Dice, case: &mut Slices) {
    let lengths = [case.record.len(), case.columns.len(), case.rows.len(), case.slots.len()];
    let slice = dice.pick(&[0, 1, 2, 3, 3, 3, 3, 3]);
    if lengths[slice] == 0 {
        return;
    }
    let index = dice.below(lengths[slice]);
    let (numbers, (low, high)) = match slice {
        0 => (&mut case.record, OF_RECORD[index % OF_RECORD.len()]),
        1 => (&mut case.columns, OF_WIDTH),
        2 => (&mut case.rows, OF_WIDTH),
        _ => (&mut case.slots, OF_SLOT[index % SLOTS]),
    };
    numbers[index] = dice.pick(&[low, high, low - 1, high + 1]);
}

/// Weights at their ends or one beyond them, as near as may be or one nearer, beside a δ of 0 and sometimes a whole one; or a δ of 0 without
/// weights.
pub fn weights_met(dice: &mut Dice) -> Slices {
    let shape = shapes::small(dice);
    let mut case = grid(dice, shape);
    let [(light, fresh_most), (salt_least, heavy)] = OF_WEIGHTS;
    let fresh = dice.pick(&[light - 1, light, 1_000, salt_least - APART, fresh_most, fresh_most + 1]);
    let salt = dice.pick(&[salt_least - 1, salt_least, fresh + APART - 1, fresh + APART, heavy, heavy + 1]);
    let weights = dice.pick(&[[fresh, salt], [fresh, salt], [fresh, salt], [0, 0], [fresh, 0], [0, salt]]);
    let delta = dice.pick(&[0, 0, 0, 0, 1, 40, 100]);
    case = case.with_density([delta, weights[0], weights[1]]);
    if dice.one_in(4) {
        case.record[place::FLAG] = 2;
    }
    case
}

/// A well whose screen is at an end of the aquifer, one tick beyond it, or has no length; or a screen without a well.
pub fn screens_met(dice: &mut Dice) -> Slices {
    let shape = shapes::line(dice);
    let mut case = grid(dice, shape);
    let Some(block) = active(dice, &case) else {
        return case;
    };
    // The highest aquifer of all, with a K that leaves every conductance below the limit.
    if dice.one_in(4) {
        set_span(&mut case, block, LEVEL, LEVEL);
        case.block_mut(block)[slot::K] = 1;
    }
    let [base, top] = case.span(block);
    let pumpage = dice.pick(&[1, -1, 0, 1_000, -1_000]);
    let screens =
        [[base, top], [base - 1, top], [base, top + 1], [base, base], [top, top], [top, base], [top - 1, top], [base, base + 1], [0, 0]];
    let screen = dice.pick(&screens);
    case.set_well(block, [pumpage, screen[0], screen[1]]);
    case
}

/// Shapes of 512 blocks, of 513, and of more.
const TOTALS: [Shape; 12] = [
    [64, 8, 1],
    [8, 64, 1],
    [16, 8, 4],
    [2, 32, 8],
    [27, 19, 1],
    [57, 9, 1],
    [9, 19, 3],
    [57, 3, 3],
    [64, 9, 1],
    [64, 64, 8],
    [65, 1, 1],
    [1, 1, 9],
];

/// A grid about as large as can be, in which few blocks are active, with the slots of at most 513 blocks.
pub fn total_met(dice: &mut Dice) -> Slices {
    let [columns, rows, layers] = dice.pick(&TOTALS);
    let mut case = Slices::empty(columns, rows, 1);
    case.record[place::LAYERS] = layers as i64;
    case.slots.resize(SLOTS * (columns * rows * layers).min(513), 0);
    let one = grid(dice, [1, 1, 1]);
    for _ in 0..dice.below(20) {
        let block = case.blocks() - dice.below(case.blocks().min(columns * rows));
        case.block_mut(block).copy_from_slice(&one.slots);
    }
    case
}
