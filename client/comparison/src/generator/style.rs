//! What the blocks of one case have in common.

use super::ranges::{APART, CONDUCTANCE, K, LEAKANCE, LEVEL, OF_WEIGHTS};
use crate::dice::Dice;
use crate::slices::{place, weights_of, Slices};

/// In ticks.
const HALF_A_METRE: i64 = 2_048;

/// What the blocks of one case have in common.
pub struct Style {
    pub layers: usize,
    /// δ, fresh weight and salt weight, as the record has them.
    pub density: [i64; 3],
    pub flag: i64,
    pub heads: Heads,
    /// New heads, and those of rivers and of many seas, are multiples of so many ticks.
    pub unit: i64,
    /// The lowest base, the greatest thickness, and about the highest top.
    pub bottom: i64,
    pub thickness: i64,
    pub top: i64,
    /// All stacks of blocks have the same bases and thicknesses.
    pub is_flat: bool,
    /// The greatest K; and that of each layer where a layer has one.
    pub most_k: i64,
    pub layer_k: Option<Vec<i64>>,
    pub most_leakance: i64,
    /// One block in so many is inactive, has a well, has a boundary.
    pub inactive: usize,
    pub wells: usize,
    pub boundaries: usize,
    pub may_be_dry: bool,
    pub may_move: bool,
    pub is_steady: bool,
}

/// How the new heads of a case go over its blocks.
#[derive(Clone, Copy)]
pub enum Heads {
    /// The same everywhere.
    Still { fresh: i64, salt: i64 },
    /// An interface that rises or falls from block to block along rows and columns, under almost level fresh heads.
    Wedge { interface: i64, rise: i64, fresh: i64 },
    /// Each block for itself, more often with the interface near its base or its top.
    Rough,
    /// At or near the ends of the range.
    Ends,
    /// Almost level fresh heads, mostly over an interface at or below the base.
    Gentle { fresh: i64 },
}

/// The style of a case whose counts and widths are set.
pub fn style_of(dice: &mut Dice, case: &Slices) -> Style {
    let layers = case.record[place::LAYERS] as usize;
    let density = density(dice);
    let most_thickness = if layers == 1 { LEVEL } else { LEVEL / (layers as i64 - 1) };
    let thickness = dice.pick(&[2, 5_000, 60_000, 100_000, 245_760, most_thickness]).min(most_thickness);
    let bottom = bottom(dice, thickness, layers as i64);
    let top = bottom + thickness * layers as i64;
    let most_k = most_k(dice, case, thickness);
    Style {
        layers,
        density,
        flag: dice.from(0, 1),
        heads: heads_of_case(dice, bottom, top, thickness),
        unit: 1,
        bottom,
        thickness,
        top,
        is_flat: dice.one_in(2),
        most_k,
        layer_k: dice.one_in(2).then(|| (0..layers).map(|_| dice.from(1, most_k)).collect()),
        most_leakance: most_leakance(dice, case),
        inactive: dice.pick(&[4, 10, 1_000]),
        wells: dice.pick(&[2, 6, 20, 1_000]),
        boundaries: dice.pick(&[1, 2, 5, 1_000]),
        may_be_dry: dice.one_in(4),
        may_move: dice.one_in(8),
        is_steady: dice.one_in(2),
    }
}

/// A style of fresh water that flows from block to block, with heads that differ by half metres: an odd number of them carries a half litre
/// wherever the conductance is odd.
pub fn gentle_style_of(dice: &mut Dice, case: &Slices) -> Style {
    let style = style_of(dice, case);
    let layer_k = (0..style.layers).map(|_| dice.from(1, style.most_k)).collect();
    let (fresh, flag) = (near(dice, style.bottom, style.top), i64::from(dice.one_in(4)));
    Style {
        flag,
        heads: Heads::Gentle { fresh },
        unit: HALF_A_METRE,
        layer_k: Some(layer_k),
        inactive: 20,
        boundaries: 1,
        may_be_dry: false,
        ..style
    }
}

impl Style {
    /// The weights of fresh and of salt water.
    pub fn weights(&self) -> [i64; 2] {
        weights_of(self.density)
    }
}

/// δ alone, or two weights after a δ of 0.
fn density(dice: &mut Dice) -> [i64; 3] {
    match dice.below(6) {
        0 | 1 => {
            let [fresh, salt] = weights(dice);
            [0, fresh, salt]
        }
        2 | 3 => [dice.pick(&[1, 2, 40, 99, 100]), 0, 0],
        _ => [dice.from(1, 100), 0, 0],
    }
}

/// Two weights in range, mostly at its ends or as near to one another as can be.
fn weights(dice: &mut Dice) -> [i64; 2] {
    let [(light, fresh_most), (salt_least, heavy)] = OF_WEIGHTS;
    let fresh = match dice.below(4) {
        0 => light,
        1 => fresh_most,
        2 => 1_000,
        _ => dice.from(light, fresh_most),
    };
    let nearest = salt_least.max(fresh + APART);
    let salt = match dice.below(4) {
        0 => nearest,
        1 => heavy,
        2 => 1_023,
        _ => dice.from(nearest, heavy),
    };
    [fresh, salt]
}

/// A lowest base that leaves room for all layers: mostly so that they lie about sea level, else at an end of the range.
fn bottom(dice: &mut Dice, thickness: i64, layers: i64) -> i64 {
    let highest = LEVEL - 2 * thickness * (layers - 1);
    let base = match dice.below(10) {
        0 => -LEVEL,
        1 => highest,
        _ => dice.from(-thickness * layers, thickness),
    };
    base.clamp(-LEVEL, highest)
}

/// The greatest K, mostly one with which no lateral conductance is beyond the limit.
fn most_k(dice: &mut Dice, case: &Slices, thickness: i64) -> i64 {
    let widths = || case.columns.iter().chain(&case.rows).copied();
    let (narrow, wide) = (widths().min().unwrap_or(1), widths().max().unwrap_or(1));
    // A salt K is at most twice K.
    let safe = CONDUCTANCE * 4_096 / 2 * narrow / (thickness * wide);
    let most = dice.pick(&[30, 10_000, 60_000, K]);
    if dice.one_in(12) {
        most
    } else {
        most.min(safe.max(1))
    }
}

/// The greatest leakance, mostly one with which no conductance is beyond the limit.
fn most_leakance(dice: &mut Dice, case: &Slices) -> i64 {
    let widest = |widths: &[i64]| widths.iter().copied().max().unwrap_or(1);
    let safe = CONDUCTANCE * 1_000 / (widest(&case.columns) * widest(&case.rows));
    let most = dice.pick(&[50, 2_000, 20_000, LEAKANCE]);
    if dice.one_in(12) {
        most
    } else {
        most.min(safe)
    }
}

fn heads_of_case(dice: &mut Dice, bottom: i64, top: i64, thickness: i64) -> Heads {
    match dice.below(8) {
        0 => {
            let fresh = near(dice, bottom, top).clamp(-LEVEL, LEVEL);
            Heads::Still { fresh, salt: (fresh - dice.from(-9, 9) * thickness / 40).clamp(-LEVEL, LEVEL) }
        }
        1 | 2 => Heads::Wedge {
            interface: near(dice, bottom, top),
            rise: dice.from(-thickness, thickness),
            fresh: near(dice, bottom.max(-5_000), top.max(5_000)),
        },
        3 => Heads::Ends,
        _ => Heads::Rough,
    }
}

/// A level at a base or a top, next to it, between them or beyond them.
pub fn near(dice: &mut Dice, base: i64, top: i64) -> i64 {
    match dice.below(12) {
        0 => base,
        1 => top,
        2 => base + dice.from(-1, 1),
        3 => top + dice.from(-1, 1),
        4 => base - dice.from(1, 5_000),
        5 => top + dice.from(1, 5_000),
        _ => dice.from(base, top),
    }
}
