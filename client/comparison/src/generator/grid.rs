//! Cases whose numbers are in range and whose layers do not overlap. A conductance may be beyond the limit, a fixed head may have moved, a
//! well may be dry.

use super::block::active_block;
use super::ranges::{OF_RECORD, TOLERANCE};
use super::shapes::Shape;
use super::style::{gentle_style_of, style_of, Style};
use crate::dice::Dice;
use crate::slices::{place, Slices, SLOTS};

/// A case of this shape.
pub fn grid(dice: &mut Dice, shape: Shape) -> Slices {
    grid_of(dice, shape, style_of)
}

/// A case of this shape in which many flows are half a litre beyond a whole number.
pub fn gentle_grid(dice: &mut Dice, shape: Shape) -> Slices {
    grid_of(dice, shape, gentle_style_of)
}

fn grid_of(dice: &mut Dice, [columns, rows, layers]: Shape, style_of: fn(&mut Dice, &Slices) -> Style) -> Slices {
    let mut case = Slices::empty(columns, rows, layers);
    (case.columns, case.rows) = (widths(dice, columns), widths(dice, rows));
    let style = style_of(dice, &case);
    case.record[place::DELTA..=place::SALT_WEIGHT].copy_from_slice(&style.density);
    case.record[place::FLAG] = style.flag;
    case.record[place::STEP] = step(dice);
    case.record[place::TOLERANCE] = tolerance(dice);
    let a_layer = columns * rows;
    let spans = spans(dice, &style, a_layer);
    for (index, block) in case.slots.chunks_mut(SLOTS).enumerate() {
        let distance = index % columns + index / columns % rows;
        if !dice.one_in(style.inactive) {
            block.copy_from_slice(&active_block(dice, &style, spans[index], index / a_layer, distance));
        }
    }
    case
}

fn step(dice: &mut Dice) -> i64 {
    match dice.below(6) {
        0 => 1,
        1 => OF_RECORD[place::STEP].1,
        2 => 30,
        _ => dice.from(1, OF_RECORD[place::STEP].1),
    }
}

fn tolerance(dice: &mut Dice) -> i64 {
    match dice.below(6) {
        0 => 0,
        1 => TOLERANCE,
        2 => dice.from(0, 100),
        3 => dice.from(0, TOLERANCE),
        _ => dice.from(0, 1_000_000),
    }
}

fn widths(dice: &mut Dice, count: usize) -> Vec<i64> {
    let same = dice.from(1, 500);
    let kind = dice.below(8);
    let mut width = || match kind {
        0..=2 => same,
        3 => dice.pick(&[1, 2, 4_096]),
        4 => dice.from(1, 4_096),
        5 => dice.from(1, 3),
        _ => dice.from(1, 400),
    };
    (0..count).map(|_| width()).collect()
}

/// Base and thickness of every block.
fn spans(dice: &mut Dice, style: &Style, a_layer: usize) -> Vec<[i64; 2]> {
    let mut spans = vec![[0; 2]; a_layer * style.layers];
    let mut stack = stack(dice, style);
    for place in 0..a_layer {
        if !style.is_flat {
            stack = self::stack(dice, style);
        }
        for (layer, span) in stack.iter().enumerate() {
            spans[layer * a_layer + place] = *span;
        }
    }
    spans
}

/// Base and thickness of the blocks above one another, the deepest first. Most touch.
fn stack(dice: &mut Dice, style: &Style) -> Vec<[i64; 2]> {
    let mut base = style.bottom;
    let mut span = || {
        let thickness = if dice.one_in(10) { 1 } else { dice.from(1, style.thickness) };
        let gap = if dice.one_in(4) { dice.from(0, style.thickness) } else { 0 };
        base += thickness + gap;
        [base - thickness - gap, thickness]
    };
    (0..style.layers).map(|_| span()).collect()
}
