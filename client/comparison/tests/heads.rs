//! How far a head reaches: W-207 of document 02, on random cases in which one block gets other heads.

use std::collections::BTreeMap;

use caydubeesh::slot;
use comparison::dice::Dice;
use comparison::engines::{reach, Archive, Engine, Reference};
use comparison::generator::heads::tuned;
use comparison::input::Tuned;
use comparison::slices::Slices;

const INPUTS: u64 = 10_000;

/// Columns, rows and layers from the block whose heads are others: the eleven that they reach.
const REACHED: [[isize; 3]; 11] =
    [[0, 0, 0], [-2, 0, 0], [-1, 0, 0], [1, 0, 0], [2, 0, 0], [0, -2, 0], [0, -1, 0], [0, 1, 0], [0, 2, 0], [0, 0, -1], [0, 0, 1]];

/// Some that they do not.
const OUTSIDE: [[isize; 3]; 7] = [[3, 0, 0], [-3, 0, 0], [0, 3, 0], [0, -3, 0], [1, 1, 0], [1, 0, 1], [0, 0, 2]];

fn made(number: u64) -> Tuned {
    tuned(&mut Dice::of_input(7, number))
}

/// Where a block lies from another, both counted from 1.
fn from(case: &Slices, block: usize, other: usize) -> [isize; 3] {
    let (columns, rows) = (case.columns.len(), case.rows.len());
    let place = |block: usize| [(block - 1) % columns, (block - 1) / columns % rows, (block - 1) / (columns * rows)];
    std::array::from_fn(|axis| place(other)[axis] as isize - place(block)[axis] as isize)
}

/// Blocks that are active and could change, and blocks whose balances do, by where they lie.
fn look(engine: &impl Engine) -> [BTreeMap<[isize; 3], usize>; 2] {
    let mut found = [BTreeMap::new(), BTreeMap::new()];
    for number in 1..=INPUTS {
        let made = made(number);
        let (Ok(before), Ok(after)) = (engine.balances(&made.case), engine.balances(&made.after())) else { continue };
        for block in (1..=made.case.blocks()).filter(|&block| made.case.is_active(block)) {
            let place = from(&made.case, made.block, block);
            *found[0].entry(place).or_default() += 1;
            *found[1].entry(place).or_default() += usize::from(before[block - 1] != after[block - 1]);
        }
    }
    found
}

#[test]
fn every_block_of_the_reach_changes_and_no_other() {
    for [there, changed] in [look(&Archive), look(&Reference)] {
        for place in REACHED {
            assert!(changed[&place] >= 20, "{place:?} changes {} times", changed[&place]);
        }
        for place in OUTSIDE {
            assert!(there[&place] >= 20, "{place:?} is there {} times", there[&place]);
        }
        for (place, count) in changed {
            assert!(count == 0 || REACHED.contains(&place), "{place:?} changes {count} times");
        }
    }
}

#[test]
fn the_second_reading_has_this_reach() {
    for number in 1..=INPUTS {
        let Tuned { case, block, .. } = made(number);
        for (index, is_reached) in reach(&case, block).unwrap().into_iter().enumerate() {
            assert_eq!(is_reached, REACHED.contains(&from(&case, block, index + 1)));
        }
    }
}

/// The case of crates/reach/proofs/WorkedTheorems.antt: five columns, five rows, three layers, and salt water in a mound in the middle layer.
fn mound() -> Slices {
    let mut case = Slices::empty(5, 5, 3);
    for number in 1..=75 {
        let [columns, rows, layers] = from(&case, 38, number).map(isize::abs);
        let heads = match [columns + rows, layers] {
            [0, 0] => [4_096, 0],
            [1, 0] => [4_500, 0],
            [_, 0] => [8_192, -100],
            _ => [4_096, 0],
        };
        let layer = (number as i64 - 1) / 25;
        let slots = case.block_mut(number);
        slots[..5].copy_from_slice(&[10_000, -450_560 + 245_760 * layer, 245_760, 200, if layer == 2 { 0 } else { 1_000 }]);
        slots[slot::OLD_FRESH..].copy_from_slice(&[heads, heads].concat());
    }
    case
}

/// The litres a day that the theorems have; blocks are counted from 1 here.
fn worked_mound(engine: &impl Engine) {
    let tuned = Tuned { case: mound(), block: 38, heads: [4_000, 10, 4_000, 10] };
    let [before, after] = [tuned.case.clone(), tuned.after()].map(|case| engine.balances(&case).unwrap());
    let of = |number: usize| [before[number - 1], after[number - 1]];
    for two_away in [28, 36, 40, 48] {
        assert_eq!(of(two_away), [[-531_032, 1_021], [-531_032, 892]]);
    }
    assert_eq!([of(13), of(63)], [[[0, 0], [0, 24]], [[0, 0], [-234, 0]]]);
    let changed: Vec<usize> = (1..=75).filter(|&number| of(number)[0] != of(number)[1]).collect();
    assert_eq!(changed, [13, 28, 33, 36, 37, 38, 39, 40, 43, 48, 63]);
}

#[test]
fn the_worked_mound() {
    worked_mound(&Archive);
    worked_mound(&Reference);
}
