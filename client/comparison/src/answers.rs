//! What an engine answers to an input, as values that can be compared whole: the refusal, the block, and all memory lent for the answer as
//! it is after the call. That memory is filled before the call, so that what is not touched shows.

use std::fmt;

use reference::Refusal;

use crate::engines::{reach, Engine};
use crate::input::{Asked, File, Input, Level, Tuned};
use crate::slices::Slices;
use crate::{FILL, NO_BLOCK};

/// What one function answered.
#[derive(Clone, Debug, PartialEq, Eq)]
pub struct Answer {
    pub function: &'static str,
    pub refusal: u64,
    /// What the function wrote as the block; 0 for a function that names none.
    pub block: usize,
    /// The memory that was lent for the answer, slice by slice; doubles by their bits.
    pub lent: Vec<Vec<i64>>,
}

/// The name of what is asked with the one heads of a block and with the other.
const BALANCES: &str = "balances";

impl Answer {
    /// A balance is another outside the reach of the heads that are.
    fn reaches_too_far(&self) -> bool {
        self.function == BALANCES && self.refusal == 0 && self.block != 0
    }
}

/// Where two engines differ on an input: the first function whose answers are not equal.
#[derive(Clone, Debug)]
pub struct Difference {
    pub one: Answer,
    pub other: Answer,
}

/// Asks an engine all that an input asks.
pub fn answers(engine: &impl Engine, input: &Input) -> Vec<Answer> {
    match input {
        Input::Case(asked) => case_answers(engine, asked).into(),
        Input::Tuned(tuned) => vec![tuned_answer(engine, tuned)],
        Input::File(file) => vec![read_answer(engine, file)],
        Input::Level(level) => level_answers(engine, level).into(),
    }
}

/// The first of two engines' answers that are not equal, if any; or that are equal, and both have a head reach too far.
pub fn difference(ones: &[Answer], others: &[Answer]) -> Option<Difference> {
    let (one, other) = ones.iter().zip(others).find(|(one, other)| one != other || one.reaches_too_far())?;
    Some(Difference { one: one.clone(), other: other.clone() })
}

fn case_answers(engine: &impl Engine, asked: &Asked) -> [Answer; 4] {
    let Asked { case, marks, number, room: [verdict_room, table_room, report_room] } = asked;
    let (mut verdict, mut lines, mut metres) = (vec![FILL; *verdict_room], vec![FILL; *table_room], vec![FILL as f64; *report_room]);
    let mut blocks = [NO_BLOCK; 4];
    let [a, b, c, d] = &mut blocks;
    let refusals = [
        engine.check(case, a),
        engine.verdict(case, &mut verdict, b),
        engine.zone_table(case, marks, &mut lines, c),
        engine.report(case, *number, &mut metres, d),
    ];
    [
        Answer { function: "check", refusal: refusals[0], block: blocks[0], lent: vec![] },
        Answer { function: "verdict", refusal: refusals[1], block: blocks[1], lent: vec![verdict] },
        Answer { function: "zone_table", refusal: refusals[2], block: blocks[2], lent: vec![lines] },
        Answer { function: "report", refusal: refusals[3], block: blocks[3], lent: vec![metres.into_iter().map(bits).collect()] },
    ]
}

/// Balances with the one heads and with the other. The block is the first one outside the reach of the heads, as the second reading has it,
/// whose balances are others; 0 for none.
fn tuned_answer(engine: &impl Engine, tuned: &Tuned) -> Answer {
    let told = || {
        let (before, after) = (engine.balances(&tuned.case)?, engine.balances(&tuned.after())?);
        let reach = reach(&tuned.case, tuned.block)?;
        let too_far = (0..reach.len()).find(|&index| !reach[index] && before[index] != after[index]);
        Ok((too_far.map_or(0, |index| index + 1), vec![before.concat(), after.concat()]))
    };
    match told() {
        Ok((block, lent)) => Answer { function: BALANCES, refusal: 0, block, lent },
        Err(Refusal { number, block }) => Answer { function: BALANCES, refusal: number, block, lent: vec![] },
    }
}

fn read_answer(engine: &impl Engine, file: &File) -> Answer {
    let [record, columns, rows, slots] = file.room.map(|length| vec![FILL; length]);
    let mut lent = Slices { record, columns, rows, slots };
    let mut block = NO_BLOCK;
    let refusal = engine.read(&file.bytes, &mut lent, &mut block);
    Answer { function: "read", refusal, block, lent: vec![lent.record, lent.columns, lent.rows, lent.slots] }
}

fn level_answers(engine: &impl Engine, level: &Level) -> [Answer; 3] {
    let level_metres = f64::from_bits(level.bits);
    let (mut tick, mut floor, mut metres) = (FILL, FILL, FILL as f64);
    let refusals =
        [engine.tick(level_metres, &mut tick), engine.floor_tick(level_metres, &mut floor), engine.metres(level.tick, &mut metres)];
    [
        Answer { function: "tick", refusal: refusals[0], block: 0, lent: vec![vec![tick]] },
        Answer { function: "floor_tick", refusal: refusals[1], block: 0, lent: vec![vec![floor]] },
        Answer { function: "metres", refusal: refusals[2], block: 0, lent: vec![vec![bits(metres)]] },
    ]
}

fn bits(double: f64) -> i64 {
    double.to_bits() as i64
}

/// The most numbers of a slice that are printed.
const SHOWN: usize = 18;

impl fmt::Display for Answer {
    fn fmt(&self, f: &mut fmt::Formatter<'_>) -> fmt::Result {
        write!(f, "{} returns {}, block {}", self.function, self.refusal, self.block)?;
        for slice in &self.lent {
            let shown: Vec<String> = slice.iter().take(SHOWN).map(shown).collect();
            let more = if slice.len() > SHOWN { format!(" and {} more", slice.len() - SHOWN) } else { String::new() };
            write!(f, "; [{}]{more}", shown.join(" "))?;
        }
        Ok(())
    }
}

/// A number of lent memory; `-` where it is as it was filled.
fn shown(number: &i64) -> String {
    if *number == FILL || *number == bits(FILL as f64) {
        "-".into()
    } else {
        number.to_string()
    }
}

impl Difference {
    /// The first place of lent memory in which the two differ: slice and place, each counted from 1.
    fn place(&self) -> Option<(usize, usize)> {
        let slices = self.one.lent.iter().zip(&self.other.lent);
        let mut places = slices.enumerate().filter_map(|(slice, (one, other))| {
            let place = one.iter().zip(other).position(|(one, other)| one != other)?;
            Some((slice + 1, place + 1))
        });
        places.next()
    }

    /// Both answers under these names, and where their memory differs.
    pub fn told(&self, one: &str, other: &str) -> String {
        let mut told = format!("{one}: {}\n{other}: {}\n", self.one, self.other);
        if let Some((slice, place)) = self.place() {
            let number = |answer: &Answer| shown(&answer.lent[slice - 1][place - 1]);
            told += &format!("slice {slice}, number {place}: {} and {}\n", number(&self.one), number(&self.other));
        }
        told
    }
}
