//! Document 01, "A lateral face", with W-206 and W-209 of document 02.

use crate::one_block::Levels;
use crate::units_and_ranges::{floor, nearest, Grid, Site, TICKS_IN_A_METRE};
use crate::Record;

/// "K for salt is floor(K(δ+1)/δ)."; W-209: "the salt K is floor(K·salt/fresh)". In mm/day.
pub(crate) fn salt_k(record: &Record, k: i64) -> i64 {
    match record.weights() {
        None => floor(k * (record.delta + 1), record.delta),
        Some((fresh, salt)) => floor(k * salt, fresh),
    }
}

/// "With widths L1, L2 along the line and W across: Kf = floor((L1+L2)K1K2 / (L1K2+L2K1))". Widths in metres, K in mm/day, above 0.
pub(crate) fn face_k(lengths: [i64; 2], k: [i64; 2]) -> i64 {
    floor((lengths[0] + lengths[1]) * k[0] * k[1], lengths[0] * k[1] + lengths[1] * k[0])
}

/// "conductance C = floor(2·Kf·B·W / ((L1+L2)·4,096)) for face thickness B." Kf in mm/day, B in ticks, W and L in metres; litres a day
/// for a metre of head.
pub(crate) fn conductance(face_k: i64, thickness: i64, across: i64, lengths: [i64; 2]) -> i64 {
    floor(2 * face_k * thickness * across, (lengths[0] + lengths[1]) * TICKS_IN_A_METRE)
}

/// "Only block a holds it: let p be the block on a's other side. If p is outside, inactive or without the fluid, B = 0. Otherwise B =
/// Ba - floor(D·La/(Lp+La)), D = Bp - Ba or 0 if that is negative, and B is never below 0." Thicknesses in ticks, widths in metres.
/// An inactive p and one without the fluid have thickness 0; `beyond` is p's thickness and width, and none if p is outside.
pub(crate) fn tip_thickness(thickness: i64, length: i64, beyond: Option<(i64, i64)>) -> i64 {
    match beyond {
        None | Some((0, _)) => 0,
        Some((beyond_thickness, beyond_length)) => {
            let rise = (beyond_thickness - thickness).max(0);
            (thickness - floor(rise * length, beyond_length + length)).max(0)
        }
    }
}

/// "Flow = cut(C·(difference of that fluid's heads)/4,096) litres/day." W-206: "Lateral, leakage and boundary flows shall be rounded to the
/// nearest litre, halves away from zero, so opposite differences still give opposite flows." The difference in ticks.
pub(crate) fn flow(conductance: i64, difference: i64) -> i64 {
    nearest(conductance * difference, TICKS_IN_A_METRE)
}

/// "Neighbours in a row or column of one layer, both active".
pub(crate) struct Face<'a> {
    /// The index of the neighbour with the lower number.
    pub first: usize,
    /// From a block's index to that of the next one in the line.
    stride: usize,
    /// Of the first neighbour in the line, counted from 0.
    position: usize,
    /// The widths of the line's blocks along the line, metres.
    along: &'a [i64],
    /// W, metres.
    pub across: i64,
}

impl Face<'_> {
    /// The index of the neighbour with the higher number.
    pub fn second(&self) -> usize {
        self.first + self.stride
    }

    /// L1 and L2, metres.
    pub fn lengths(&self) -> [i64; 2] {
        [self.along[self.position], self.along[self.position + 1]]
    }

    /// "let p be the block on a's other side", of a the first neighbour: its index and its width in metres.
    fn before_first(&self) -> Option<(usize, i64)> {
        let position = self.position.checked_sub(1)?;
        Some((self.first - self.stride, self.along[position]))
    }

    /// The same of a the second neighbour.
    fn after_second(&self) -> Option<(usize, i64)> {
        let length = *self.along.get(self.position + 2)?;
        Some((self.second() + self.stride, length))
    }
}

impl Grid<'_> {
    /// The faces "between active blocks to the next column, next row".
    pub fn faces(&self, site: Site) -> [Option<Face<'_>>; 2] {
        let (column_width, row_width) = (self.column_widths[site.column], self.row_widths[site.row]);
        let along_row = Face { first: site.index, stride: 1, position: site.column, along: self.column_widths, across: row_width };
        let along_column =
            Face { first: site.index, stride: self.counts.columns, position: site.row, along: self.row_widths, across: column_width };
        [along_row, along_column].map(|face| self.joins_active(&face).then_some(face))
    }

    /// "both active; otherwise no flow."
    fn joins_active(&self, face: &Face) -> bool {
        face.position + 1 < face.along.len() && self.blocks[face.first].active() && self.blocks[face.second()].active()
    }
}

/// "Both blocks hold the fluid (its thickness is above 0): B = floor((B1+B2)/2)."; "Only block a holds it"; "Neither: no flow." In ticks;
/// 0 is no flow.
fn face_thickness(levels: &[Levels], face: &Face, fluid: usize) -> i64 {
    let thickness = |block: usize| levels[block].thickness[fluid];
    let with_thickness = |(block, length): (usize, i64)| (thickness(block), length);
    let (first, second) = (thickness(face.first), thickness(face.second()));
    let [first_length, second_length] = face.lengths();
    match (first > 0, second > 0) {
        (true, true) => floor(first + second, 2),
        (true, false) => tip_thickness(first, first_length, face.before_first().map(with_thickness)),
        (false, true) => tip_thickness(second, second_length, face.after_second().map(with_thickness)),
        (false, false) => 0,
    }
}

/// The flow of a fluid through a face, litres a day, above 0 out of the first block and into the second.
/// "No flow leaves the block without the fluid."
pub(crate) fn lateral_flow(grid: &Grid, levels: &[Levels], face: &Face, fluid: usize) -> i64 {
    let thickness = face_thickness(levels, face, fluid);
    if thickness == 0 {
        return 0;
    }
    let (first, second) = (face.first, face.second());
    let face_k = face_k(face.lengths(), [grid.k[first][fluid], grid.k[second][fluid]]);
    let difference = grid.blocks[first].new_heads[fluid] - grid.blocks[second].new_heads[fluid];
    let litres = flow(conductance(face_k, thickness, face.across, face.lengths()), difference);
    let left = if litres > 0 { first } else { second };
    if levels[left].thickness[fluid] == 0 {
        0
    } else {
        litres
    }
}
