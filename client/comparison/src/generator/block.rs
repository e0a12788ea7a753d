//! One active block: its heads, well and boundary.

use caydubeesh::{kind, slot};

use super::ranges::{LEVEL, PUMPAGE};
use super::style::{near, Heads, Style};
use crate::dice::Dice;
use crate::slices::SLOTS;

/// A block with this base and thickness in this layer, counted from 0, and at this distance, in blocks, from the first corner of the layer.
pub fn active_block(dice: &mut Dice, style: &Style, [base, thickness]: [i64; 2], layer: usize, distance: usize) -> [i64; SLOTS] {
    let (top, is_top) = (base + thickness, layer + 1 == style.layers);
    let new = new_heads(dice, style, base, top, distance).map(|head| on_unit(head, style));
    let boundary = boundary(dice, style, is_top.then_some(top), new);
    let old = old_heads(dice, style, boundary[0], new);
    let mut slots = [0; SLOTS];
    slots[slot::K] = style.layer_k.as_ref().map_or_else(|| dice.from(1, style.most_k), |k| k[layer]);
    slots[slot::BASE] = base;
    slots[slot::THICKNESS] = thickness;
    slots[slot::POROSITY] = if dice.one_in(6) { dice.pick(&[1, 1_000]) } else { dice.from(1, 1_000) };
    if is_top {
        slots[slot::RECHARGE] = dice.pick(&[0, 0, 0, 17, 3_000, 1_000_000]);
    } else if !dice.one_in(6) {
        slots[slot::LEAKANCE] = dice.from(0, style.most_leakance);
    }
    let wet = if is_top && style.flag == 1 && !style.may_be_dry { top.min(new[0]) } else { top };
    if wet > base && dice.one_in(style.wells) {
        slots[slot::PUMPAGE..=slot::SCREEN_TOP].copy_from_slice(&well(dice, base, top, wet));
    }
    slots[slot::KIND..=slot::BOUNDARY_LEAKANCE].copy_from_slice(&boundary);
    slots[slot::OLD_FRESH..].copy_from_slice(&[old[0], old[1], new[0], new[1]]);
    slots
}

/// The multiple of the case's unit at or below a level. The ends of the range are multiples.
fn on_unit(level: i64, style: &Style) -> i64 {
    level - level.rem_euclid(style.unit)
}

/// New fresh and salt head.
fn new_heads(dice: &mut Dice, style: &Style, base: i64, top: i64, distance: usize) -> [i64; 2] {
    match style.heads {
        Heads::Still { fresh, salt } => [fresh, salt],
        Heads::Wedge { interface, rise, fresh } => {
            let fresh = fresh + dice.from(-3, 3);
            heads_with(dice, style, interface + rise * distance as i64, fresh)
        }
        Heads::Rough => {
            // A fresh head far from a deep block drives water through the layers.
            let [low, high] = if dice.one_in(2) { [base, top] } else { [style.bottom, style.top] };
            let (interface, fresh) = (near(dice, base, top), near(dice, low, high));
            heads_with(dice, style, interface, fresh)
        }
        Heads::Ends => [end(dice), end(dice)],
        Heads::Gentle { fresh } => {
            let interface = if dice.one_in(4) { near(dice, base, top) } else { base - dice.from(0, 5_000) };
            let fresh = fresh + dice.from(-3, 3) * style.unit;
            heads_with(dice, style, interface, fresh)
        }
    }
}

/// A head at or near an end of the range, or anywhere in it.
fn end(dice: &mut Dice) -> i64 {
    match dice.below(4) {
        0 => dice.from(-LEVEL, LEVEL),
        1 => {
            let inside = LEVEL - dice.from(0, 9);
            dice.signed(inside)
        }
        _ => dice.signed(LEVEL),
    }
}

/// Heads whose interface and fresh head are near these: one of the two is exactly met, unless a head would be out of range. With m = Φf -
/// Φs and weights f and s the interface is floor(Φf - sm/(s-f)), so that Φf = ζ + ceil(sm/(s-f)).
fn heads_with(dice: &mut Dice, style: &Style, interface: i64, fresh: i64) -> [i64; 2] {
    let [light, heavy] = style.weights();
    let m = ((fresh - interface) * (heavy - light)).div_euclid(heavy);
    let fresh = if dice.one_in(2) { fresh } else { interface + ceil(heavy * m, heavy - light) };
    [fresh, fresh - m].map(|head| head.clamp(-LEVEL, LEVEL))
}

/// Old heads: those of a fixed fluid mostly are the new ones.
fn old_heads(dice: &mut Dice, style: &Style, boundary: i64, new: [i64; 2]) -> [i64; 2] {
    let mut old_head = |new: i64, is_fixed: bool| {
        let keeps = if is_fixed { !(style.may_move && dice.one_in(3)) } else { style.is_steady };
        let change = if dice.one_in(3) { dice.from(-1, 1) } else { dice.from(-4_000, 4_000) };
        if keeps {
            new
        } else {
            (new + change).clamp(-LEVEL, LEVEL)
        }
    };
    let is_fixed = |kind: i64| boundary == kind || boundary == kind::BOTH_FIXED;
    [old_head(new[0], is_fixed(kind::FIXED_FRESH)), old_head(new[1], is_fixed(kind::FIXED_SALT))]
}

/// Pumpage, screen bottom and screen top of a well from base to top whose screen begins below the wet end.
fn well(dice: &mut Dice, base: i64, top: i64, wet: i64) -> [i64; 3] {
    let size = match dice.below(5) {
        0 => dice.from(1, 9),
        1 => PUMPAGE - dice.from(0, 1),
        _ => dice.from(1, 1_000_000),
    };
    let [bottom, upper] = match dice.below(5) {
        0 => [base, top],
        1 => [base, base + 1],
        2 => [wet - 1, top],
        _ => {
            let bottom = dice.from(base, wet - 1);
            [bottom, dice.from(bottom + 1, top)]
        }
    };
    [dice.signed(size), bottom, upper]
}

/// Kind, level and leakance of a boundary; rivers and seas in the top layer only, where the block's top is given.
fn boundary(dice: &mut Dice, style: &Style, top: Option<i64>, heads: [i64; 2]) -> [i64; 3] {
    if !dice.one_in(style.boundaries) {
        return [0; 3];
    }
    match (dice.from(if top.is_some() { kind::RIVER } else { kind::FIXED_FRESH }, kind::BOTH_FIXED), top) {
        (kind::RIVER, _) => [kind::RIVER, on_unit(stage(dice, heads[0]), style), boundary_leakance(dice, style)],
        (kind::SEA, Some(top)) => [kind::SEA, sea_floor(dice, style, heads, top), boundary_leakance(dice, style)],
        (fixed, _) => [fixed, 0, 0],
    }
}

/// Mostly anything up to the case's greatest, else one so small that few litres pass.
fn boundary_leakance(dice: &mut Dice, style: &Style) -> i64 {
    let most = if dice.one_in(3) { 9 } else { style.most_leakance };
    dice.from(1, most.min(style.most_leakance))
}

fn stage(dice: &mut Dice, head: i64) -> i64 {
    match dice.below(6) {
        0 => dice.signed(LEVEL),
        1 => head,
        _ => (head + dice.from(-5_000, 5_000)).clamp(-LEVEL, LEVEL),
    }
}

/// The least whole number that is not below a quotient.
fn ceil(dividend: i64, divisor: i64) -> i64 {
    -(-dividend).div_euclid(divisor)
}

/// A floor, often one at which the sea's head, floor(depth (s-f)/f), is about the block's own: the fresh head, or the salt one in fresh water at
/// the block's top. Then the sea brings or takes little or nothing.
fn sea_floor(dice: &mut Dice, style: &Style, [fresh, salt]: [i64; 2], top: i64) -> i64 {
    match dice.below(9) {
        0 => 0,
        1 => -LEVEL,
        2 => -dice.from(0, 200),
        3..=5 => -dice.from(0, 400_000),
        _ => {
            let [light, heavy] = style.weights();
            let own = dice.pick(&[fresh, (heavy * salt - (heavy - light) * top).div_euclid(light)]);
            let apart = dice.pick(&[3, 300]);
            (-ceil(light * on_unit(own + dice.from(-apart, apart), style), heavy - light)).clamp(-LEVEL, 0)
        }
    }
}
