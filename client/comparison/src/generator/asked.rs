//! What is asked with a case: a zone by its marks, the number of a block, and room for the answers.

use crate::dice::Dice;
use crate::input::{Asked, ANSWERS};
use crate::slices::Slices;

/// A case with a zone, a number and room of any kind.
pub fn asked(dice: &mut Dice, case: Slices) -> Asked {
    Asked { marks: marks(dice, &case), number: number(dice, &case), room: ANSWERS.map(|need| room(dice, need)), case }
}

/// Mostly the length that is needed, else a shorter or longer one.
pub fn room(dice: &mut Dice, need: usize) -> usize {
    match dice.below(40) {
        0 => dice.below(need + 1),
        1..=3 => need + dice.below(4),
        _ => need,
    }
}

fn marks(dice: &mut Dice, case: &Slices) -> Vec<i64> {
    let mut marks = zone(dice, case);
    match dice.below(30) {
        0 => marks.truncate(dice.below(case.blocks() + 1)),
        1 | 2 => wrong_mark(dice, &mut marks),
        // Marks beyond the last block, of any value, count for nothing.
        3 | 4 => (0..=dice.below(3)).for_each(|_| marks.push(dice.wild())),
        _ => {}
    }
    marks
}

/// Puts a number that is mostly no mark in some place.
pub fn wrong_mark(dice: &mut Dice, marks: &mut [i64]) {
    if !marks.is_empty() {
        marks[dice.below(marks.len())] = if dice.one_in(2) { dice.pick(&[2, -1]) } else { dice.wild() };
    }
}

/// A mark 0 or 1 for each block: all, none, one block, a layer, a stack of blocks, the columns up to one, or any.
fn zone(dice: &mut Dice, case: &Slices) -> Vec<i64> {
    let blocks = case.blocks();
    let (columns, a_layer) = (case.columns.len().max(1), (case.columns.len() * case.rows.len()).max(1));
    let (kind, chosen) = (dice.below(12), dice.below(blocks.max(1)));
    let mut is_marked = |place: usize| match kind {
        0 | 1 => true,
        2 => false,
        3 => place == chosen,
        4 => place / a_layer == chosen / a_layer,
        5 => place % a_layer == chosen % a_layer,
        6 => place % columns <= chosen % columns,
        _ => dice.one_in(2),
    };
    (0..blocks).map(|place| is_marked(place).into()).collect()
}

/// The number of a block: mostly of an active one, else of any, or of none.
fn number(dice: &mut Dice, case: &Slices) -> usize {
    let blocks = case.blocks();
    match dice.below(16) {
        0 => 0,
        1 => blocks + 1 + dice.below(3),
        2 => usize::MAX,
        3 => dice.wild() as usize,
        4 | 5 => 1 + dice.below(blocks.max(1)),
        _ => active(dice, case).unwrap_or(1),
    }
}

/// The number of an active block, if there is one.
pub fn active(dice: &mut Dice, case: &Slices) -> Option<usize> {
    let blocks = case.blocks();
    let first = dice.below(blocks.max(1));
    (0..blocks).map(|step| (first + step) % blocks + 1).find(|&block| case.is_active(block))
}
