//! The vectors that are stored in the repository: packed inputs, and what the programs that run them print (docs/VECTORS.md, "The packed
//! form").

use std::fs;
use std::path::PathBuf;

use crate::input::{Asked, File, Input, Level, READ};
use crate::slices::Slices;

/// An input, and the lines printed for it.
pub struct Stored {
    pub input: Input,
    pub printed: String,
}

/// All stored vectors, by kind.
pub struct Vectors {
    /// Inputs of the program, with what it prints.
    pub cases: Vec<Stored>,
    /// Files, read into slices of given lengths.
    pub reads: Vec<Stored>,
    /// Cases with what the check and the verdict say.
    pub slices: Vec<Stored>,
    /// Cases with a zone, and its table.
    pub tables: Vec<Stored>,
    /// Cases with a block, and its report.
    pub reports: Vec<Stored>,
    /// Doubles with their ticks, and with what is set for a sea floor.
    pub doubles: Vec<Stored>,
}

/// Reads them from the repository.
pub fn vectors() -> Vectors {
    let mut files = Printed::of("vectors_files");
    let mut slices = Printed::of("vectors_slices");
    let mut doubles = Printed::of("vectors_doubles");
    let vectors = Vectors {
        cases: stored("vectors_files", "cases.bin", case_file, || files.up_to("--\n").trim_end_matches("--\n").into()),
        reads: stored("vectors_files", "reads.bin", read, || files.up_to("kept ")),
        slices: stored("vectors_slices", "slices.bin", |packed| Asked::of(packed.case()).into(), || slices.lines(2)),
        tables: stored("vectors_slices", "tables.bin", table, || slices.lines(1)),
        reports: stored("vectors_slices", "reports.bin", report, || slices.lines(1)),
        doubles: stored("vectors_doubles", "doubles.bin", double, || doubles.lines(2)),
    };
    assert!([files, slices, doubles].iter().all(|printed| printed.rest.is_empty()), "lines are printed for no stored input");
    vectors
}

/// The inputs in a file of a program, each with what is printed for it.
fn stored(program: &str, name: &str, input: fn(&mut Packed) -> Input, mut printed: impl FnMut() -> String) -> Vec<Stored> {
    let mut packed = Packed { all: read_file(program, &format!("data/{name}")), place: 0 };
    let mut stored = Vec::new();
    while packed.place < packed.all.len() {
        stored.push(Stored { input: input(&mut packed), printed: printed() });
    }
    stored
}

fn read_file(program: &str, name: &str) -> Vec<u8> {
    let path = PathBuf::from(env!("CARGO_MANIFEST_DIR")).join("../../crates").join(program).join(name);
    fs::read(&path).unwrap_or_else(|error| panic!("{}: {error}", path.display()))
}

fn case_file(packed: &mut Packed) -> Input {
    let length = u32::from_le_bytes(packed.chunk()) as usize;
    File { bytes: packed.bytes(length), room: READ }.into()
}

fn read(packed: &mut Packed) -> Input {
    let [length, columns, rows, slots] = packed.counts();
    File { bytes: packed.bytes(length), room: [READ[0], columns, rows, slots] }.into()
}

fn table(packed: &mut Packed) -> Input {
    let case = packed.case();
    let [count] = packed.counts();
    Asked { marks: packed.signed_numbers(count), ..Asked::of(case) }.into()
}

fn report(packed: &mut Packed) -> Input {
    let case = packed.case();
    let [number] = packed.counts();
    Asked { number, ..Asked::of(case) }.into()
}

fn double(packed: &mut Packed) -> Input {
    Level { bits: packed.word(), tick: 0 }.into()
}

/// Packed inputs, and how many of their bytes are read.
struct Packed {
    all: Vec<u8>,
    place: usize,
}

impl Packed {
    fn bytes(&mut self, count: usize) -> Vec<u8> {
        self.place += count;
        self.all[self.place - count..self.place].to_vec()
    }

    fn chunk<const LENGTH: usize>(&mut self) -> [u8; LENGTH] {
        self.bytes(LENGTH).try_into().expect("so many bytes were taken")
    }

    fn word(&mut self) -> u64 {
        u64::from_le_bytes(self.chunk())
    }

    fn counts<const COUNT: usize>(&mut self) -> [usize; COUNT] {
        std::array::from_fn(|_| self.word() as usize)
    }

    /// 2n for n ≥ 0 and -2n-1 below zero.
    fn signed(&mut self) -> i64 {
        let word = self.word();
        (word >> 1) as i64 ^ -((word & 1) as i64)
    }

    fn signed_numbers(&mut self, count: usize) -> Vec<i64> {
        (0..count).map(|_| self.signed()).collect()
    }

    /// Counts and flag go without a sign, and may be numbers below zero of the same 64 bits.
    fn case(&mut self) -> Slices {
        let [columns, rows, layers] = std::array::from_fn(|_| self.word() as i64);
        let [delta, fresh, salt] = std::array::from_fn(|_| self.signed());
        let record = vec![columns, rows, layers, delta, fresh, salt, self.word() as i64, self.signed(), self.signed()];
        let [columns, rows, slots] = self.counts();
        Slices { record, columns: self.signed_numbers(columns), rows: self.signed_numbers(rows), slots: self.signed_numbers(slots) }
    }
}

/// What a program prints for all its inputs, as far as it is not taken yet.
struct Printed {
    rest: std::collections::VecDeque<String>,
}

impl Printed {
    fn of(program: &str) -> Printed {
        let stdout = String::from_utf8(read_file(program, "stdout")).expect("a program prints text");
        Printed { rest: stdout.split_inclusive('\n').map(String::from).collect() }
    }

    fn line(&mut self) -> String {
        self.rest.pop_front().expect("a line is printed for each stored input")
    }

    fn lines(&mut self, count: usize) -> String {
        (0..count).map(|_| self.line()).collect()
    }

    /// The lines up to one that begins so, that one too.
    fn up_to(&mut self, start: &str) -> String {
        let mut text = String::new();
        loop {
            let line = self.line();
            text += &line;
            if line.starts_with(start) {
                return text;
            }
        }
    }
}
