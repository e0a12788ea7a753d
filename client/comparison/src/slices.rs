//! A case in slices, and its case file.

use caydubeesh::{kind, slot};

pub use caydubeesh::{RECORD, SLOTS};

/// The places of a record's numbers.
pub mod place {
    pub const COLUMNS: usize = 0;
    pub const ROWS: usize = 1;
    pub const LAYERS: usize = 2;
    pub const DELTA: usize = 3;
    pub const FRESH_WEIGHT: usize = 4;
    pub const SALT_WEIGHT: usize = 5;
    pub const FLAG: usize = 6;
    pub const STEP: usize = 7;
    pub const TOLERANCE: usize = 8;
}

/// The weights of fresh and of salt water, of δ and what a record has after it; of a whole δ the pair δ and δ + 1.
pub fn weights_of(density: [i64; 3]) -> [i64; 2] {
    match density {
        [0, fresh, salt] => [fresh, salt],
        [delta, ..] => [delta, delta + 1],
    }
}

/// A case in slices. Its record is a slice too, so that it can be too short.
#[derive(Clone, Debug, PartialEq, Eq)]
pub struct Slices {
    pub record: Vec<i64>,
    pub columns: Vec<i64>,
    pub rows: Vec<i64>,
    pub slots: Vec<i64>,
}

impl Slices {
    /// The two blocks of document 01, "Numbers worked by hand".
    pub fn printed() -> Slices {
        let one = [10_000, -204_800, 245_760, 200, 0, 0, 0, 0, 0, 5, 0, 0, 8_192, 0, 8_192, 0];
        let two = [10_000, -204_800, 245_760, 200, 0, 0, 150, -4_096, 4_096, 0, 0, 0, 8_191, 0, 8_191, 0];
        Slices { record: vec![2, 1, 1, 40, 0, 0, 0, 30, 5], columns: vec![100, 100], rows: vec![100], slots: [one, two].concat() }
    }

    /// A grid of inactive blocks, widths 100 m.
    pub fn empty(columns: usize, rows: usize, layers: usize) -> Slices {
        Slices {
            record: vec![columns as i64, rows as i64, layers as i64, 40, 0, 0, 0, 30, 5],
            columns: vec![100; columns],
            rows: vec![100; rows],
            slots: vec![0; SLOTS * columns * rows * layers],
        }
    }

    /// The same with one slot of one block, counted from 1, set.
    pub fn with(&self, block: usize, slot: usize, value: i64) -> Slices {
        let mut case = self.clone();
        case.slots[SLOTS * (block - 1) + slot] = value;
        case
    }

    /// The same with one number of the record set.
    pub fn with_record(&self, place: usize, value: i64) -> Slices {
        let mut case = self.clone();
        case.record[place] = value;
        case
    }

    /// The same with another δ, fresh weight and salt weight.
    pub fn with_density(&self, density: [i64; 3]) -> Slices {
        let mut case = self.clone();
        case.record[place::DELTA..=place::SALT_WEIGHT].copy_from_slice(&density);
        case
    }

    /// The weights of fresh and of salt water.
    pub fn weights(&self) -> [i64; 2] {
        weights_of([place::DELTA, place::FRESH_WEIGHT, place::SALT_WEIGHT].map(|place| self.record[place]))
    }

    /// How many blocks the slots are enough for.
    pub fn blocks(&self) -> usize {
        self.slots.len() / SLOTS
    }

    /// A block's sixteen slots; the block is counted from 1.
    pub fn block(&self, block: usize) -> &[i64] {
        &self.slots[SLOTS * (block - 1)..SLOTS * block]
    }

    /// The same, to be written.
    pub fn block_mut(&mut self, block: usize) -> &mut [i64] {
        &mut self.slots[SLOTS * (block - 1)..SLOTS * block]
    }

    /// The lines of blocks along the rows and the columns of each layer; of slices that are just as long as the record needs.
    pub fn lines(&self) -> Vec<Vec<usize>> {
        let (columns, rows) = (self.columns.len(), self.rows.len());
        let row_of = |block: usize| (block - 1) / columns;
        let column_of = |block: usize| (block - 1) / (columns * rows) * columns + (block - 1) % columns;
        let layers = self.blocks() / (columns * rows);
        let along_rows = (0..rows * layers).map(|line| (1..=self.blocks()).filter(|&block| row_of(block) == line).collect());
        let along_columns = (0..columns * layers).map(|line| (1..=self.blocks()).filter(|&block| column_of(block) == line).collect());
        along_rows.chain(along_columns).collect()
    }

    /// Whether a block is active.
    pub fn is_active(&self, block: usize) -> bool {
        self.block(block)[slot::K] != 0
    }

    /// A block's base and aquifer top; not for a block with wild numbers.
    pub fn span(&self, block: usize) -> [i64; 2] {
        let slots = self.block(block);
        [slots[slot::BASE], slots[slot::BASE] + slots[slot::THICKNESS]]
    }

    /// Sets pumpage, screen bottom and screen top of a block.
    pub fn set_well(&mut self, block: usize, well: [i64; 3]) {
        self.block_mut(block)[slot::PUMPAGE..=slot::SCREEN_TOP].copy_from_slice(&well);
    }

    /// Sets boundary kind, level and boundary leakance of a block.
    pub fn set_boundary(&mut self, block: usize, boundary: [i64; 3]) {
        self.block_mut(block)[slot::KIND..=slot::BOUNDARY_LEAKANCE].copy_from_slice(&boundary);
    }

    /// The numbers of the record that a case file sends: the weights after a δ of 0 only.
    fn sent_record(&self) -> impl Iterator<Item = &i64> {
        let is_whole = self.record.get(place::DELTA).is_some_and(|&delta| delta != 0);
        let is_sent = move |place: usize| !(is_whole && (place::FRESH_WEIGHT..=place::SALT_WEIGHT).contains(&place));
        self.record.iter().enumerate().filter(move |(place, _)| is_sent(*place)).map(|(_, number)| number)
    }

    /// The numbers of the case file in their order: document 01, "The case file", and document 02, W-209.
    pub fn numbers(&self) -> Vec<u64> {
        let mut numbers: Vec<u64> = self.sent_record().chain(&self.columns).chain(&self.rows).map(|&n| n as u64).collect();
        for block in self.slots.chunks(SLOTS) {
            let sent = if block[slot::K] == 0 { 1 } else { SLOTS };
            let is_open = matches!(block.get(slot::KIND), Some(&kind::RIVER | &kind::SEA));
            for (place, &n) in block.iter().enumerate().take(sent) {
                match place {
                    slot::LEVEL | slot::BOUNDARY_LEAKANCE if !is_open => {}
                    slot::BASE | slot::PUMPAGE..=slot::SCREEN_TOP | slot::LEVEL | slot::OLD_FRESH.. => numbers.push(folded(n)),
                    _ => numbers.push(n as u64),
                }
            }
        }
        numbers
    }

    /// The case file of these numbers.
    pub fn file(&self) -> Vec<u8> {
        file_of(&self.numbers())
    }
}

/// A file of these numbers.
pub fn file_of(numbers: &[u64]) -> Vec<u8> {
    let mut file = Vec::new();
    numbers.iter().for_each(|&number| put(&mut file, number));
    file
}

/// A signed number as it is sent: 2n for n ≥ 0 and -2n-1 below zero.
fn folded(n: i64) -> u64 {
    ((n << 1) ^ (n >> 63)) as u64
}

/// Writes a number in groups of seven bits, low group first.
pub fn put(file: &mut Vec<u8>, mut number: u64) {
    while number > 127 {
        file.push(number as u8 | 128);
        number >>= 7;
    }
    file.push(number as u8);
}
