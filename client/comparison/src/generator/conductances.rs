//! Cases in which a conductance equals the limit, or is one above it.

use caydubeesh::{kind, slot};

use super::grid::grid;
use super::limits::set_span;
use super::ranges::{CONDUCTANCE, K, LEAKANCE, LEVEL, OF_WIDTH};
use super::shapes::Shape;
use crate::dice::Dice;
use crate::slices::{place, Slices};

/// How often numbers are rolled until they meet a conductance exactly. The last ones miss it by little.
const TRIES: usize = 500;

/// A case with such a conductance: lateral, of leakage, or of a boundary.
pub fn conductance_met(dice: &mut Dice) -> Slices {
    let wanted = CONDUCTANCE + dice.from(0, 1);
    match dice.below(4) {
        0 | 1 => lateral_met(dice, wanted),
        2 => leakage_met(dice, wanted),
        _ => boundary_met(dice, wanted),
    }
}

/// A case of active blocks of this shape without leakance, river and sea.
fn bare_grid(dice: &mut Dice, shape: Shape) -> Slices {
    let mut case = grid(dice, shape);
    while !(1..=case.blocks()).all(|block| case.is_active(block)) {
        case = grid(dice, shape);
    }
    for block in 1..=case.blocks() {
        case.block_mut(block)[slot::LEAKANCE] = 0;
        if case.block(block)[slot::BOUNDARY_LEAKANCE] > 0 {
            case.set_boundary(block, [0; 3]);
        }
    }
    case
}

/// Two blocks with the same K, whose salt K is the greater one.
struct Face {
    lengths: [i64; 2],
    across: i64,
    k: i64,
    thickness: i64,
    conductance: i64,
}

/// Widths, a K and the least thickness with which C = floor(2 · Ks · B · W / ((L1 + L2) · 4,096)) is not below what is wanted.
fn rolled_face(dice: &mut Dice, [light, heavy]: [i64; 2], wanted: i64) -> Face {
    let (lengths, across) = ([dice.from(1, 200), dice.from(1, 200)], dice.from(1, OF_WIDTH.1));
    let divisor = (lengths[0] + lengths[1]) * 4_096;
    let salt_k = wanted * divisor / (2 * across * dice.from(LEVEL / 4, LEVEL));
    let k = (salt_k * light / heavy).clamp(1, K);
    let factor = 2 * (k * heavy / light) * across;
    let thickness = ((wanted * divisor - 1) / factor + 1).min(LEVEL);
    Face { lengths, across, k, thickness, conductance: factor * thickness / divisor }
}

fn lateral_met(dice: &mut Dice, wanted: i64) -> Slices {
    let mut case = bare_grid(dice, [2, 1, 1]);
    let weights = case.weights();
    let mut face = rolled_face(dice, weights, wanted);
    for _ in 0..TRIES {
        if face.conductance == wanted {
            break;
        }
        face = rolled_face(dice, weights, wanted);
    }
    (case.columns, case.rows) = (face.lengths.to_vec(), vec![face.across]);
    for block in [1, 2] {
        set_span(&mut case, block, -face.thickness, face.thickness);
        case.block_mut(block)[slot::K] = face.k;
    }
    // The greater thickness of the two counts.
    if dice.one_in(2) {
        set_span(&mut case, 1 + dice.below(2), -1, 1);
    }
    turned(dice, case)
}

/// The same line along a row or along a column.
fn turned(dice: &mut Dice, mut case: Slices) -> Slices {
    if dice.one_in(2) {
        case.record.swap(place::COLUMNS, place::ROWS);
        std::mem::swap(&mut case.columns, &mut case.rows);
    }
    case
}

/// Sets the widths of the one column and the one row, and gives the leakance with which C = floor(leakance · area / 1,000) is what is
/// wanted.
fn leakance_met(dice: &mut Dice, case: &mut Slices, wanted: i64) -> i64 {
    // The least area that a leakance in range is enough for.
    let least = wanted * 1_000 / LEAKANCE + 1;
    let mut leakance = 0;
    for _ in 0..TRIES {
        let column = dice.from(100, OF_WIDTH.1);
        let row = dice.from(least / column + 1, (2 * least / column).min(OF_WIDTH.1));
        (case.columns[0], case.rows[0]) = (column, row);
        leakance = (wanted * 1_000 - 1) / (column * row) + 1;
        if leakance * column * row / 1_000 == wanted {
            break;
        }
    }
    leakance
}

fn leakage_met(dice: &mut Dice, wanted: i64) -> Slices {
    let mut case = bare_grid(dice, [1, 1, 2]);
    case.block_mut(1)[slot::LEAKANCE] = leakance_met(dice, &mut case, wanted);
    case
}

fn boundary_met(dice: &mut Dice, wanted: i64) -> Slices {
    let layers = 1 + dice.below(2);
    let mut case = bare_grid(dice, [1, 1, layers]);
    let boundary = [dice.pick(&[kind::RIVER, kind::SEA]), -dice.from(0, 99), leakance_met(dice, &mut case, wanted)];
    case.set_boundary(layers, boundary);
    case
}
