//! Document 01, "The case file", with W-209 of document 02.

use crate::refusal_numbers::{
    judge, judge_conductances, judge_pair, judge_room, judge_tops, judge_total, BYTES_FOLLOW, COUNT, FILE_ENDS, LONG_FORM, RECORD, SLOT,
    WIDTH,
};
use crate::units_and_ranges::{
    remaining_rules, river_or_sea, within, Block, Counts, Ends, Grid, BOUNDARY_LEAKANCE, COUNT_ENDS, DELTA_ENDS, FLAG_ENDS,
    FRESH_WEIGHT_ENDS, K, KIND, LAYER_ENDS, LEVEL, SALT_WEIGHT_ENDS, SLOTS, SLOT_ENDS, STEP_ENDS, TOLERANCE_ENDS, WIDTH_ENDS,
};
use crate::{Case, Record, Refusal};

/// "Signed fields (base, pumpage, screens, stage or floor, heads)", by slot.
const SIGNED: [bool; SLOTS] = [false, true, false, false, false, false, true, true, true, false, true, false, true, true, true, true];

/// "at most five bytes".
const GREATEST_BYTES: u32 = 5;

/// "Signed fields .. are sent as 2n for n ≥ 0 and -2n-1 below zero."
pub(crate) fn signed(sent: i64) -> i64 {
    if sent % 2 == 0 {
        sent / 2
    } else {
        -(sent / 2) - 1
    }
}

/// "The number reader keeps the lent file and its place."
pub(crate) struct Reader<'a> {
    file: &'a [u8],
    place: usize,
}

impl<'a> Reader<'a> {
    /// At the first byte.
    pub fn new(file: &'a [u8]) -> Reader<'a> {
        Reader { file, place: 0 }
    }

    /// "1 | the file ends where a byte is still needed".
    fn byte(&mut self) -> Result<u8, Refusal> {
        let byte = *self.file.get(self.place).ok_or(Refusal { number: FILE_ENDS, block: 0 })?;
        self.place += 1;
        Ok(byte)
    }

    /// "Numbers in groups of seven bits, low group first, high bit set on all but the last byte, at most five bytes, shortest form
    /// only."; "2 | a number is longer than its shortest form, or a fifth byte has its high bit set". At most 2^35 - 1.
    pub fn number(&mut self) -> Result<i64, Refusal> {
        let mut number = 0;
        for group in 0..GREATEST_BYTES {
            let byte = self.byte()?;
            number += i64::from(byte % 128) << (7 * group);
            if byte < 128 {
                judge(byte != 0 || group == 0, LONG_FORM, 0)?;
                return Ok(number);
            }
        }
        Err(Refusal { number: LONG_FORM, block: 0 })
    }

    /// "A file is judged number by number: 1 or 2, then its range".
    fn number_within(&mut self, ends: Ends, refusal: u64) -> Result<i64, Refusal> {
        let number = self.number()?;
        judge(within(number, ends), refusal, 0)?;
        Ok(number)
    }

    /// "Order: columns, rows, layers"; "3 for the total .. straight after layers".
    fn counts(&mut self) -> Result<Counts, Refusal> {
        let columns = self.number_within(COUNT_ENDS, COUNT)? as usize;
        let rows = self.number_within(COUNT_ENDS, COUNT)? as usize;
        let layers = self.number_within(LAYER_ENDS, COUNT)? as usize;
        let counts = Counts { columns, rows, layers };
        judge_total(counts)?;
        Ok(counts)
    }

    /// W-209: "A δ of 0 in the case now means that two more numbers follow: fresh weight .. and salt weight .., at least 5 apart". "zero when
    /// δ is whole".
    fn weights(&mut self, delta: i64) -> Result<[i64; 2], Refusal> {
        if delta != 0 {
            return Ok([0, 0]);
        }
        let fresh = self.number_within(FRESH_WEIGHT_ENDS, RECORD)?;
        let salt = self.number_within(SALT_WEIGHT_ENDS, RECORD)?;
        judge_pair(fresh, salt)?;
        Ok([fresh, salt])
    }

    /// "δ, flag, step, tolerance", after the counts; what W-209 adds is "judged right after δ".
    fn record(&mut self, counts: Counts) -> Result<Record, Refusal> {
        let delta = self.number_within((0, DELTA_ENDS.1), RECORD)?;
        let [fresh_weight, salt_weight] = self.weights(delta)?;
        Ok(Record {
            columns: counts.columns as i64,
            rows: counts.rows as i64,
            layers: counts.layers as i64,
            delta,
            fresh_weight,
            salt_weight,
            flag: self.number_within(FLAG_ENDS, RECORD)?,
            step: self.number_within(STEP_ENDS, RECORD)?,
            tolerance: self.number_within(TOLERANCE_ENDS, RECORD)?,
        })
    }

    /// "column widths, row widths".
    fn widths(&mut self, count: usize) -> Result<Vec<i64>, Refusal> {
        (0..count).map(|_| self.number_within(WIDTH_ENDS, WIDTH)).collect()
    }

    /// "for a slot its ends from the fixed table".
    fn slot(&mut self, slot: usize, block: usize) -> Result<i64, Refusal> {
        let sent = self.number()?;
        let number = if SIGNED[slot] { signed(sent) } else { sent };
        judge(within(number, SLOT_ENDS[slot]), SLOT, block)?;
        Ok(number)
    }

    /// "per block K alone if 0, otherwise its slots in order, the two boundary slots only for kinds 1 and 2"; "a block's remaining
    /// slot rules (screens, kind, layer) are judged after its last number, with 6".
    fn block(&mut self, block: usize, top_layer: bool) -> Result<[i64; SLOTS], Refusal> {
        let mut slots = [0; SLOTS];
        slots[K] = self.slot(K, block)?;
        if slots[K] == 0 {
            return Ok(slots);
        }
        for slot in K + 1..SLOTS {
            let boundary_slot = slot == LEVEL || slot == BOUNDARY_LEAKANCE;
            if !boundary_slot || river_or_sea(slots[KIND]) {
                slots[slot] = self.slot(slot, block)?;
            }
        }
        judge(remaining_rules(&Block::of(&slots), top_layer), SLOT, block)?;
        Ok(slots)
    }

    /// All blocks, "by layer, then row, then column".
    fn blocks(&mut self, counts: Counts) -> Result<Vec<i64>, Refusal> {
        let mut slots = Vec::with_capacity(SLOTS * counts.blocks());
        for index in 0..counts.blocks() {
            slots.extend(self.block(index + 1, counts.top_layer(index))?);
        }
        Ok(slots)
    }

    /// "8 | bytes follow the last block".
    fn end(&self) -> Result<(), Refusal> {
        judge(self.place == self.file.len(), BYTES_FOLLOW, 0)
    }
}

/// Reads a case file into three lent slices. A refusal leaves them as they were, and room beyond what is needed is not touched.
///
/// "Order: columns, rows, layers, δ, flag, step, tolerance, column widths, row widths, then per block"; "3 for the total, then 7, come
/// straight after layers; then 8, 9, 10."
pub fn read(file: &[u8], columns: &mut [i64], rows: &mut [i64], slots: &mut [i64]) -> Result<Record, Refusal> {
    let mut reader = Reader::new(file);
    let counts = reader.counts()?;
    judge_room(counts, columns, rows, slots)?;
    let record = reader.record(counts)?;
    let column_widths = reader.widths(counts.columns)?;
    let row_widths = reader.widths(counts.rows)?;
    let block_slots = reader.blocks(counts)?;
    reader.end()?;
    let grid = Grid::of(&Case { record, columns: &column_widths, rows: &row_widths, slots: &block_slots }, counts);
    judge_tops(&grid)?;
    judge_conductances(&grid)?;
    columns[..column_widths.len()].copy_from_slice(&column_widths);
    rows[..row_widths.len()].copy_from_slice(&row_widths);
    slots[..block_slots.len()].copy_from_slice(&block_slots);
    Ok(record)
}
