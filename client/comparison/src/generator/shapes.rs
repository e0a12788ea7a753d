//! How many columns, rows and layers a grid has.

use crate::dice::Dice;

/// Columns, rows and layers.
pub type Shape = [usize; 3];

/// Few blocks.
pub fn small(dice: &mut Dice) -> Shape {
    let mut count = || 1 + dice.below(3).min(dice.below(3));
    [count(), count(), count()]
}

/// A line of blocks along a row or a column, some in two layers: what lies behind a tip counts here.
pub fn line(dice: &mut Dice) -> Shape {
    let (length, layers) = (2 + dice.below(6), dice.pick(&[1, 1, 1, 2]));
    dice.pick(&[[length, 1, layers], [1, length, layers]])
}

/// At least two layers over few columns and rows.
pub fn stack(dice: &mut Dice) -> Shape {
    let layers = if dice.one_in(6) { 8 } else { 2 + dice.below(3) };
    [dice.pick(&[1, 1, 2]), dice.pick(&[1, 1, 2]), layers]
}

/// Some thirty blocks.
pub fn middle(dice: &mut Dice) -> Shape {
    [3 + dice.below(3), 3 + dice.below(3), 1 + dice.below(3)]
}

/// Shapes with a count at its end, or with 512 blocks.
const LARGE: [Shape; 10] =
    [[64, 8, 1], [8, 64, 1], [16, 16, 2], [8, 8, 8], [64, 1, 8], [1, 64, 8], [64, 1, 1], [1, 64, 1], [32, 8, 2], [1, 1, 8]];

/// Up to 512 blocks.
pub fn large(dice: &mut Dice) -> Shape {
    if dice.one_in(2) {
        return dice.pick(&LARGE);
    }
    let layers = 1 + dice.below(8);
    let columns = 1 + dice.below((512 / layers).min(64));
    [columns, 1 + dice.below((512 / layers / columns).min(64)), layers]
}
