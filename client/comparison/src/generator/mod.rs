//! Inputs, made from a seed: whole cases, limits exactly met, cases with other heads in one block, damaged cases, files and doubles.

pub mod asked;
pub mod block;
pub mod conductances;
pub mod faults;
pub mod files;
pub mod grid;
pub mod heads;
pub mod levels;
pub mod limits;
pub mod ranges;
pub mod shapes;
pub mod style;

use crate::dice::Dice;
use crate::input::Input;
use crate::slices::Slices;

/// A kind of input: its name, how many of `SHARES` inputs are of it, and what makes one.
pub struct Kind {
    pub name: &'static str,
    pub share: usize,
    pub make: fn(&mut Dice) -> Input,
}

const fn kind(name: &'static str, share: usize, make: fn(&mut Dice) -> Input) -> Kind {
    Kind { name, share, make }
}

/// All kinds. A new kind of input is a line here and a function that makes one.
pub const KINDS: &[Kind] = &[
    kind("small grid", 230, |dice| of_shape(dice, shapes::small)),
    kind("line", 90, |dice| of_shape(dice, shapes::line)),
    kind("stack", 60, |dice| of_shape(dice, shapes::stack)),
    kind("middle grid", 15, |dice| of_shape(dice, shapes::middle)),
    kind("large grid", 3, |dice| of_shape(dice, shapes::large)),
    kind("tolerance met", 90, |dice| of_case(dice, limits::tolerance_met)),
    kind("halves met", 60, |dice| of_case(dice, limits::halves_met)),
    kind("slot met", 30, |dice| of_case(dice, limits::slot_met)),
    kind("conductance met", 40, |dice| of_case(dice, conductances::conductance_met)),
    kind("tops met", 35, |dice| of_case(dice, limits::tops_met)),
    kind("ends met", 60, |dice| of_case(dice, limits::ends_met)),
    kind("weights met", 40, |dice| of_case(dice, limits::weights_met)),
    kind("screens met", 40, |dice| of_case(dice, limits::screens_met)),
    kind("total met", 7, |dice| of_case(dice, limits::total_met)),
    kind("heads tuned", 20, |dice| heads::tuned(dice).into()),
    kind("damaged case", 70, |dice| faults::damaged(dice).into()),
    kind("several faults", 90, |dice| faults::several(dice).into()),
    kind("wild numbers", 20, |dice| faults::wild(dice).into()),
    kind("file", 35, files::whole),
    kind("damaged file", 35, files::damaged),
    kind("forms of numbers", 20, files::forms),
    kind("refused file", 30, files::refused),
    kind("weights in a file", 30, files::weights),
    kind("late rule", 20, files::late_rule),
    kind("bytes", 10, files::bytes),
    kind("level", 40, levels::level),
];

fn of_shape(dice: &mut Dice, shape: fn(&mut Dice) -> shapes::Shape) -> Input {
    let shape = shape(dice);
    let case = grid::grid(dice, shape);
    asked::asked(dice, case).into()
}

fn of_case(dice: &mut Dice, case: fn(&mut Dice) -> Slices) -> Input {
    let case = case(dice);
    asked::asked(dice, case).into()
}

/// How many inputs make up all shares.
const SHARES: usize = {
    let (mut sum, mut place) = (0, 0);
    while place < KINDS.len() {
        sum += KINDS[place].share;
        place += 1;
    }
    sum
};

/// The input with this number in the sequence of a seed, and the place of its kind.
pub fn input(seed: u64, number: u64) -> (usize, Input) {
    let mut dice = Dice::of_input(seed, number);
    let mut share = dice.below(SHARES);
    let mut place = 0;
    while share >= KINDS[place].share {
        share -= KINDS[place].share;
        place += 1;
    }
    (place, (KINDS[place].make)(&mut dice))
}
