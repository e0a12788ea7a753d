//! One input of a comparison: all that is lent to the functions that are asked about it.

use caydubeesh::slot;

use crate::slices::{Slices, RECORD, SLOTS};

/// How many numbers a verdict, a table and a report have.
pub const ANSWERS: [usize; 3] = [4, 18, 5];

/// The most that a file can need: a record, column widths, row widths and slots.
pub const READ: [usize; 4] = [RECORD, caydubeesh::WIDTHS, caydubeesh::WIDTHS, SLOTS * caydubeesh::BLOCKS];

#[derive(Clone, Debug, PartialEq, Eq)]
pub enum Input {
    Case(Asked),
    Tuned(Tuned),
    File(File),
    Level(Level),
}

/// A case in slices, which is checked and has a verdict; marks for a table; and a block's number for a report.
#[derive(Clone, Debug, PartialEq, Eq)]
pub struct Asked {
    pub case: Slices,
    pub marks: Vec<i64>,
    pub number: usize,
    /// The lengths of what is lent for the verdict, the table and the report.
    pub room: [usize; 3],
}

impl Asked {
    /// The case with all its blocks as a zone, the report of block 1, and room for the answers.
    pub fn of(case: Slices) -> Asked {
        Asked { marks: vec![1; case.blocks()], case, number: 1, room: ANSWERS }
    }
}

/// A case in slices just as long as its record needs, and other heads for one of its blocks, counted from 1: old fresh, old salt, new fresh,
/// new salt, in ticks. Asked are the balances of every block with the one heads and with the other.
#[derive(Clone, Debug, PartialEq, Eq)]
pub struct Tuned {
    pub case: Slices,
    pub block: usize,
    pub heads: [i64; 4],
}

impl Tuned {
    /// The case with the other heads.
    pub fn after(&self) -> Slices {
        let mut case = self.case.clone();
        case.block_mut(self.block)[slot::OLD_FRESH..].copy_from_slice(&self.heads);
        case
    }
}

/// A case file, and the lengths of what is lent for its record, column widths, row widths and slots.
#[derive(Clone, Debug, PartialEq, Eq)]
pub struct File {
    pub bytes: Vec<u8>,
    pub room: [usize; 4],
}

/// A double in metres by its bits, which is taken in as a level and as a sea floor; and a tick to be shown.
#[derive(Clone, Copy, Debug, PartialEq, Eq)]
pub struct Level {
    pub bits: u64,
    pub tick: i64,
}

impl From<Asked> for Input {
    fn from(asked: Asked) -> Input {
        Input::Case(asked)
    }
}

impl From<Tuned> for Input {
    fn from(tuned: Tuned) -> Input {
        Input::Tuned(tuned)
    }
}

impl From<File> for Input {
    fn from(file: File) -> Input {
        Input::File(file)
    }
}

impl From<Level> for Input {
    fn from(level: Level) -> Input {
        Input::Level(level)
    }
}
