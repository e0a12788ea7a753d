//! Other heads for one block of a case.

use caydubeesh::slot;

use super::asked::active;
use super::grid::grid;
use super::ranges::LEVEL;
use super::shapes::{line, small, stack, Shape};
use crate::dice::Dice;
use crate::exact;
use crate::input::Tuned;
use crate::slices::Slices;

/// A case of few blocks, and other old or new heads, or both, for one that is active, often one behind a tip. A case without an active block is
/// passed over.
pub fn tuned(dice: &mut Dice) -> Tuned {
    loop {
        let shape = shape(dice);
        let case = grid(dice, shape);
        let behind = if dice.one_in(2) { behind_a_tip(dice, &case) } else { None };
        if let Some(block) = behind.or_else(|| active(dice, &case)) {
            let heads = heads(dice, &case, block);
            return Tuned { case, block, heads };
        }
    }
}

/// A block that stands behind a tip: it holds a fluid, as the next block of its row or column does and the one after that does not.
fn behind_a_tip(dice: &mut Dice, case: &Slices) -> Option<usize> {
    let thicknesses: Vec<Option<[i64; 2]>> = (1..=case.blocks()).map(|block| exact::thickness(case, block)).collect();
    let held = |block: usize, fluid: usize| thicknesses[block - 1].map(|thickness| thickness[fluid] > 0);
    let is_tip =
        |line: [usize; 3]| [0, 1].iter().any(|&fluid| line.map(|block| held(block, fluid)) == [Some(true), Some(true), Some(false)]);
    let lines = case.lines();
    let threes =
        lines.iter().flat_map(|line| line.windows(3)).flat_map(|three| [[three[0], three[1], three[2]], [three[2], three[1], three[0]]]);
    let behind: Vec<usize> = threes.filter(|&three| is_tip(three)).map(|[block, ..]| block).collect();
    (!behind.is_empty()).then(|| dice.pick(&behind))
}

/// Lines are long enough that some blocks are out of reach; so are the corners of small grids, and stacks of three layers.
fn shape(dice: &mut Dice) -> Shape {
    match dice.below(4) {
        0 => small(dice),
        1 => stack(dice),
        _ => line(dice),
    }
}

/// Old fresh, old salt, new fresh, new salt: as they are, or moved a little or far, or those of another block.
fn heads(dice: &mut Dice, case: &Slices, block: usize) -> [i64; 4] {
    let other = active(dice, case).unwrap_or(block);
    let way = dice.below(8);
    std::array::from_fn(|head| {
        let [own, others] = [block, other].map(|block| case.block(block)[slot::OLD_FRESH + head]);
        match way {
            // Old heads alone, or new ones alone.
            0 if head >= 2 => own,
            1..=3 if head < 2 => own,
            4 => others,
            5 => dice.from(-LEVEL, LEVEL),
            _ => {
                let most = dice.pick(&[1, 100, 10_000]);
                (own + dice.from(-most, most)).clamp(-LEVEL, LEVEL)
            }
        }
    })
}
