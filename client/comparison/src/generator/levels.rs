//! Doubles in metres of every kind, and ticks to be shown.

use super::ranges::LEVEL;
use crate::dice::Dice;
use crate::input::{Input, Level};

/// Half a tick in metres.
const HALF: f64 = 1.0 / 8_192.0;

pub fn level(dice: &mut Dice) -> Input {
    Input::Level(Level { bits: double(dice).to_bits(), tick: tick(dice) })
}

fn double(dice: &mut Dice) -> f64 {
    let level = match dice.below(7) {
        0 => f64::from_bits(dice.roll()),
        1 => special(dice),
        2 => (dice.signed(2 * LEVEL) + dice.from(-5, 5)) as f64 * HALF,
        3 => dice.from(-9, 9) as f64 * HALF,
        4 => some_size(dice),
        _ => dice.from(-2 * LEVEL, 2 * LEVEL) as f64 * HALF,
    };
    match dice.below(4) {
        0 => level.next_up(),
        1 => level.next_down(),
        _ => level,
    }
}

/// What is no number, infinite, zero, subnormal, or at an end of all doubles.
fn special(dice: &mut Dice) -> f64 {
    let any = dice.roll();
    let size = match dice.below(6) {
        0 => f64::INFINITY,
        1 => f64::from_bits(0x7FF0 << 48 | any >> 12 | 1),
        2 => 0.0,
        3 => f64::from_bits(any >> 12),
        4 => f64::from_bits(1),
        _ => dice.pick(&[f64::MAX, f64::MIN_POSITIVE]),
    };
    dice.pick(&[size, -size])
}

/// Any digits, with an exponent of two from -20 to 20.
fn some_size(dice: &mut Dice) -> f64 {
    let exponent = (1_023 + dice.from(-20, 20)) as u64;
    let sign = dice.roll() & (1 << 63);
    f64::from_bits(sign | exponent << 52 | dice.roll() >> 12)
}

fn tick(dice: &mut Dice) -> i64 {
    match dice.below(4) {
        0 => dice.wild(),
        1 => dice.signed(1 << 53) + dice.from(-2, 2),
        2 => dice.from(-LEVEL, LEVEL),
        _ => dice.roll() as i64 >> dice.below(64),
    }
}
