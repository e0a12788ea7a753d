//! An input as a line of text that can be kept and run again: a JSON object in the forms of docs/VECTORS.md, so that the files described
//! there can be run too. What they do not have is taken as `Asked::of` has it, or as room for any case; keys that are not listed here are
//! passed over.
//!
//! - A case: `header` (the record), `cw`, `rw`, `slots`, `marks`, `block` (of the report), and `room`, the lengths lent for verdict,
//!   table and report.
//! - Other heads in one block of a case: `header`, `cw`, `rw`, `slots`, `block`, and `tuned`, the four heads in ticks.
//! - A file: `file` in hexadecimal digits, `caps`, the lengths lent for column widths, row widths and slots, and `room`, the length lent for
//!   the record.
//! - A level: `bits` in hexadecimal digits, and `shown`, a tick to be shown in metres.

use crate::input::{Asked, File, Input, Level, Tuned, ANSWERS, READ};
use crate::json::{self, Value};
use crate::slices::Slices;

/// The line of an input.
pub fn line(input: &Input) -> String {
    match input {
        Input::Case(asked) => case_line(asked),
        Input::Tuned(tuned) => tuned_line(tuned),
        Input::File(file) => file_line(file),
        Input::Level(level) => {
            json::line(&[("bits", Value::Text(format!("{:016x}", level.bits))), ("shown", Value::Number(level.tick.into()))])
        }
    }
}

fn case_line(asked: &Asked) -> String {
    let Asked { case, marks, number, room } = asked;
    let asked = [("marks", Value::list(marks)), ("block", Value::Number(*number as i128)), ("room", lengths(room))];
    json::line(&[&slices(case)[..], &asked].concat())
}

fn tuned_line(tuned: &Tuned) -> String {
    let heads = [("block", Value::Number(tuned.block as i128)), ("tuned", Value::list(&tuned.heads))];
    json::line(&[&slices(&tuned.case)[..], &heads].concat())
}

fn slices(case: &Slices) -> [(&'static str, Value); 4] {
    [
        ("header", Value::list(&case.record)),
        ("cw", Value::list(&case.columns)),
        ("rw", Value::list(&case.rows)),
        ("slots", Value::list(&case.slots)),
    ]
}

fn file_line(file: &File) -> String {
    let digits = file.bytes.iter().map(|byte| format!("{byte:02x}")).collect();
    json::line(&[("file", Value::Text(digits)), ("caps", lengths(&file.room[1..])), ("room", lengths(&file.room[..1]))])
}

fn lengths(lengths: &[usize]) -> Value {
    Value::List(lengths.iter().map(|&length| Value::Number(length as i128)).collect())
}

/// The input of a line.
pub fn input(line: &str) -> Result<Input, String> {
    let entries = Entries(json::object(line)?);
    if entries.get("file").is_some() {
        entries.file().map(Input::File)
    } else if entries.get("bits").is_some() {
        entries.level().map(Input::Level)
    } else if entries.get("tuned").is_some() {
        entries.tuned().map(Input::Tuned)
    } else {
        entries.case().map(Input::Case)
    }
}

struct Entries(Vec<(String, Value)>);

impl Entries {
    /// The value of a key, unless it is missing or null.
    fn get(&self, key: &str) -> Option<&Value> {
        self.0.iter().find(|(found, value)| found == key && *value != Value::Null).map(|(_, value)| value)
    }

    fn text(&self, key: &str) -> Result<&str, String> {
        match self.get(key) {
            Some(Value::Text(text)) => Ok(text),
            _ => Err(format!("\"{key}\" is no text")),
        }
    }

    fn number<T: TryFrom<i128>>(&self, key: &str) -> Result<Option<T>, String> {
        self.get(key).map(|value| number(value).ok_or(format!("\"{key}\" is no number in its range"))).transpose()
    }

    fn numbers<T: TryFrom<i128>>(&self, key: &str) -> Result<Option<Vec<T>>, String> {
        let numbers = |value: &Value| match value {
            Value::List(values) => values.iter().map(number).collect(),
            _ => None,
        };
        self.get(key).map(|value| numbers(value).ok_or(format!("\"{key}\" is no list of numbers in their range"))).transpose()
    }

    fn needed(&self, key: &str) -> Result<Vec<i64>, String> {
        self.numbers(key)?.ok_or(format!("there is no \"{key}\""))
    }

    /// A list of so many lengths; those of `instead` where the key is missing.
    fn lengths<const COUNT: usize>(&self, key: &str, instead: [usize; COUNT]) -> Result<[usize; COUNT], String> {
        let lengths = self.numbers(key)?.unwrap_or(instead.to_vec());
        lengths.try_into().map_err(|_| format!("\"{key}\" does not have {COUNT} numbers"))
    }

    fn slices(&self) -> Result<Slices, String> {
        Ok(Slices { record: self.needed("header")?, columns: self.needed("cw")?, rows: self.needed("rw")?, slots: self.needed("slots")? })
    }

    fn case(&self) -> Result<Asked, String> {
        let usual = Asked::of(self.slices()?);
        Ok(Asked {
            marks: self.numbers("marks")?.unwrap_or(usual.marks),
            number: self.number("block")?.unwrap_or(usual.number),
            room: self.lengths("room", ANSWERS)?,
            case: usual.case,
        })
    }

    fn tuned(&self) -> Result<Tuned, String> {
        let (case, block) = (self.slices()?, self.number("block")?.unwrap_or(0));
        let heads = self.needed("tuned")?.try_into().map_err(|_| "\"tuned\" does not have 4 numbers")?;
        if !(1..=case.blocks()).contains(&block) {
            return Err("\"block\" is no block of the slots".into());
        }
        Ok(Tuned { case, block, heads })
    }

    fn file(&self) -> Result<File, String> {
        let digits = self.text("file")?.as_bytes();
        let byte =
            |pair: &[u8]| std::str::from_utf8(pair).ok().filter(|_| pair.len() == 2).and_then(|pair| u8::from_str_radix(pair, 16).ok());
        let bytes =
            digits.chunks(2).map(byte).collect::<Option<Vec<u8>>>().ok_or("\"file\" has other signs than pairs of hexadecimal digits")?;
        let [record, columns, rows, slots] = READ;
        let [columns, rows, slots] = self.lengths("caps", [columns, rows, slots])?;
        let [record] = self.lengths("room", [record])?;
        Ok(File { bytes, room: [record, columns, rows, slots] })
    }

    fn level(&self) -> Result<Level, String> {
        let bits = u64::from_str_radix(self.text("bits")?, 16).map_err(|_| "\"bits\" is no number in hexadecimal digits")?;
        Ok(Level { bits, tick: self.number("shown")?.unwrap_or(0) })
    }
}

fn number<T: TryFrom<i128>>(value: &Value) -> Option<T> {
    match value {
        Value::Number(number) => T::try_from(*number).ok(),
        _ => None,
    }
}
