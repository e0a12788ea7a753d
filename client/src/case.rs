//! A case in memory of its own, so that its four parts are not handed over at each call.

use crate::{check, read, report, verdict, zone_table, Record, Refusal, Report, Table, Verdict, BLOCKS, SLOTS, WIDTHS};

/// A case in memory of its own.
#[derive(Clone, Debug, PartialEq, Eq)]
pub struct Case {
    /// The first seven numbers.
    pub record: Record,
    /// The width of each column in metres.
    pub columns: Vec<i64>,
    /// The width of each row in metres.
    pub rows: Vec<i64>,
    /// [`SLOTS`] numbers to a block.
    pub slots: Vec<i64>,
}

/// Where a block lies; each is counted from 1, layers from the deepest.
#[derive(Clone, Copy, Debug, PartialEq, Eq)]
pub struct Place {
    /// Its layer.
    pub layer: usize,
    /// Its row.
    pub row: usize,
    /// Its column.
    pub column: usize,
}

impl Case {
    /// Reads a case file. Refused as [`read`] refuses, but never with 7.
    pub fn read(file: &[u8]) -> Result<Case, Refusal> {
        let (mut columns, mut rows, mut slots) = (vec![0; WIDTHS], vec![0; WIDTHS], vec![0; SLOTS * BLOCKS]);
        let record = read(file, &mut columns, &mut rows, &mut slots)?;
        columns.truncate(record.columns as usize);
        rows.truncate(record.rows as usize);
        slots.truncate(SLOTS * columns.len() * rows.len() * record.layers as usize);
        Ok(Case { record, columns, rows, slots })
    }

    /// Judges the case. Refused with the first of 3, 7, 4, 5, 6, 9, 10 that applies; the methods below are refused so too.
    pub fn check(&self) -> Result<(), Refusal> {
        check(&self.record, &self.columns, &self.rows, &self.slots)
    }

    /// The verdict on the new heads.
    pub fn verdict(&self) -> Result<Verdict, Refusal> {
        verdict(&self.record, &self.columns, &self.rows, &self.slots)
    }

    /// The water account of a zone: `marks` has a 1 for each block in it and a 0 for each other. Refused also with 7 for short marks, with 11 for another mark
    /// and with 13 for a dry well.
    pub fn table(&self, marks: &[i64]) -> Result<Table, Refusal> {
        zone_table(&self.record, &self.columns, &self.rows, &self.slots, marks)
    }

    /// The water account of the whole grid. Refused also with 13 for a dry well.
    pub fn whole_table(&self) -> Result<Table, Refusal> {
        self.table(&vec![1; self.blocks()])
    }

    /// The water account of a layer, counted from 1 at the bottom; lines of 0 for a layer that the grid does not have. Refused also with 13 for a dry well.
    pub fn layer_table(&self, layer: usize) -> Result<Table, Refusal> {
        let is_in = |block| self.place(block).is_some_and(|place| place.layer == layer);
        self.table(&(1..=self.blocks()).map(|block| i64::from(is_in(block))).collect::<Vec<i64>>())
    }

    /// The report of a block by its number, counted from 1. Refused also with 14, which names the number asked for.
    pub fn report(&self, block: usize) -> Result<Report, Refusal> {
        report(&self.record, &self.columns, &self.rows, &self.slots, block)
    }

    /// Columns, rows and layers, where each is in its range.
    fn counts(&self) -> Option<[usize; 3]> {
        let Record { columns, rows, layers, .. } = self.record;
        let in_range = (1..=WIDTHS as i64).contains(&columns) && (1..=WIDTHS as i64).contains(&rows) && (1..=8).contains(&layers);
        in_range.then_some([columns as usize, rows as usize, layers as usize])
    }

    /// How many blocks the grid has, active or not; 0 where a count is out of range.
    pub fn blocks(&self) -> usize {
        self.counts().map_or(0, |[columns, rows, layers]| columns * rows * layers)
    }

    /// The number of the block at a place, counted from 1; none outside the grid.
    pub fn block(&self, place: Place) -> Option<usize> {
        let [columns, rows, layers] = self.counts()?;
        let Place { layer, row, column } = place;
        let is_inside = (1..=layers).contains(&layer) && (1..=rows).contains(&row) && (1..=columns).contains(&column);
        is_inside.then(|| ((layer - 1) * rows + row - 1) * columns + column)
    }

    /// Where the block with a number lies; none outside the grid.
    pub fn place(&self, block: usize) -> Option<Place> {
        let [columns, rows, layers] = self.counts()?;
        let before = block.checked_sub(1).filter(|&before| before < columns * rows * layers)?;
        Some(Place { layer: before / (columns * rows) + 1, row: before / columns % rows + 1, column: before % columns + 1 })
    }

    /// The slots of a block, counted from 1, by the names in [`crate::slot`]; none where they are not there.
    pub fn slots_of(&self, block: usize) -> Option<&[i64]> {
        self.slots.chunks_exact(SLOTS).nth(block.checked_sub(1)?)
    }
}
