//! Case files: of whole cases, with damaged bytes, with numbers in other forms, of refused cases, and no case files at all.

use caydubeesh::raw;

use super::asked::room;
use super::conductances::conductance_met;
use super::faults::{break_rule, damage, several};
use super::grid::grid;
use super::limits::{ends_met, tops_met, weights_met};
use super::shapes;
use crate::dice::Dice;
use crate::input::{File, Input, READ};
use crate::slices::{file_of, place, put, Slices, RECORD, SLOTS};

/// The file of a case.
pub fn whole(dice: &mut Dice) -> Input {
    let case = some_case(dice);
    let bytes = case.file();
    lent(dice, &case, bytes)
}

fn some_case(dice: &mut Dice) -> Slices {
    let shape = if dice.one_in(40) { shapes::large(dice) } else { shapes::small(dice) };
    grid(dice, shape)
}

/// A file with what is lent for it: room for any case or for this one, and sometimes less.
fn lent(dice: &mut Dice, case: &Slices, bytes: Vec<u8>) -> Input {
    let needs = [READ[0], case.columns.len(), case.rows.len(), case.slots.len()];
    let mut room = |need: usize, most: usize| if dice.one_in(3) { most } else { self::room(dice, need) };
    Input::File(File { bytes, room: std::array::from_fn(|slice| room(needs[slice], READ[slice])) })
}

/// The file of a case with some bytes changed, put in, taken away, cut off or added.
pub fn damaged(dice: &mut Dice) -> Input {
    let case = some_case(dice);
    let mut bytes = case.file();
    for _ in 0..=dice.below(3) {
        damage_bytes(dice, &mut bytes);
    }
    lent(dice, &case, bytes)
}

/// Changes a byte of a file, puts one in, takes one away, cuts the file or adds to it.
pub fn damage_bytes(dice: &mut Dice, bytes: &mut Vec<u8>) {
    if bytes.is_empty() {
        return;
    }
    let place = dice.below(bytes.len());
    match dice.below(7) {
        0 => bytes[place] = dice.roll() as u8,
        1 => bytes[place] ^= 1 << dice.below(8),
        2 => bytes.truncate(place + dice.below(2)),
        3 => bytes.insert(place, dice.roll() as u8),
        4 => drop(bytes.remove(place)),
        5 => bytes[place] ^= 128,
        _ => (0..=dice.below(3)).for_each(|_| bytes.push(dice.roll() as u8)),
    }
}

/// The file of a case in which some numbers have a longer form, five bytes, or another value.
pub fn forms(dice: &mut Dice) -> Input {
    let case = some_case(dice);
    let count = case.numbers().len();
    let changed: Vec<usize> = (0..=dice.below(2)).map(|_| dice.below(count)).collect();
    let bytes = file_with(dice, &case, &changed);
    lent(dice, &case, bytes)
}

/// The file of a case in which the numbers with these places are changed.
fn file_with(dice: &mut Dice, case: &Slices, changed: &[usize]) -> Vec<u8> {
    let mut bytes = Vec::new();
    for (place, number) in case.numbers().into_iter().enumerate() {
        if changed.contains(&place) {
            put_changed(dice, &mut bytes, number);
        } else {
            put(&mut bytes, number);
        }
    }
    bytes
}

/// The file of a case in which a block breaks a rule, and which is changed or ends somewhere in that block: the rule is judged after the
/// block's last number, wherever in the block it is broken.
pub fn late_rule(dice: &mut Dice) -> Input {
    let mut case = some_case(dice);
    break_rule(dice, &mut case);
    let mut block = 0;
    raw::check(&case.record, &case.columns, &case.rows, &case.slots, &mut block);
    let count_up_to = |block: usize| Slices { slots: case.slots[..SLOTS * block].to_vec(), ..case.clone() }.numbers().len();
    let (start, end) = (count_up_to(block.max(1) - 1), count_up_to(block.max(1)));
    let place = start + dice.below(end - start);
    let bytes = if dice.one_in(2) { file_of(&case.numbers()[..place]) } else { file_with(dice, &case, &[place]) };
    lent(dice, &case, bytes)
}

fn put_changed(dice: &mut Dice, bytes: &mut Vec<u8>, number: u64) {
    match dice.below(6) {
        0 => put_long(bytes, number, 2 + dice.below(4)),
        1 => put(bytes, (1 << 35) - 1 - dice.below(2) as u64),
        2 => put(bytes, dice.roll() % (1 << 35)),
        3 => bytes.extend(std::iter::repeat_n(128 | dice.roll() as u8, 4 + dice.below(3))),
        4 => put(bytes, number.wrapping_add_signed(dice.from(-2, 2)) % (1 << 35)),
        _ => put(bytes, dice.wild() as u64),
    }
}

/// Writes a number in at least so many bytes: with groups that are 0 at its end where it needs fewer.
fn put_long(bytes: &mut Vec<u8>, number: u64, least: usize) {
    let start = bytes.len();
    put(bytes, number);
    while bytes.len() < start + least {
        *bytes.last_mut().expect("a number has a byte") |= 128;
        bytes.push(0);
    }
}

/// The file of a case that mostly is refused, some followed by more bytes.
pub fn refused(dice: &mut Dice) -> Input {
    let mut case = match dice.below(5) {
        0 => conductance_met(dice),
        1 => tops_met(dice),
        2 => ends_met(dice),
        _ => several(dice).case,
    };
    if dice.one_in(6) {
        damage(dice, &mut case, &mut Vec::new());
    }
    let mut bytes = case.file();
    if dice.one_in(3) {
        (0..=dice.below(3)).for_each(|_| bytes.push(dice.roll() as u8));
    }
    lent(dice, &case, bytes)
}

/// The file of a case whose weights are at their limits, whole or cut after some number of its record, so that what follows them is missing.
pub fn weights(dice: &mut Dice) -> Input {
    let case = weights_met(dice);
    let numbers = case.numbers();
    let kept = if dice.one_in(2) { numbers.len() } else { place::DELTA + dice.below(RECORD + 1 - place::DELTA) };
    let bytes = file_of(&numbers[..kept.min(numbers.len())]);
    lent(dice, &case, bytes)
}

/// Bytes of no case: any, small ones, or those of small numbers with some high bits; or no byte.
pub fn bytes(dice: &mut Dice) -> Input {
    let kind = dice.below(3);
    let length = if dice.one_in(8) { 0 } else { dice.below(80) };
    let mut byte = || match kind {
        0 => dice.roll() as u8,
        1 => dice.below(3) as u8,
        _ => (dice.below(8) * dice.below(32)) as u8,
    };
    let bytes = (0..length).map(|_| byte()).collect();
    lent(dice, &Slices::printed(), bytes)
}
