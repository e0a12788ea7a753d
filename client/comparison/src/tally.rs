//! Compares inputs one by one, and counts them by kind and by outcome.

use std::collections::BTreeMap;
use std::fmt;

use crate::answers::{answers, difference, Answer, Difference};
use crate::engines::Engine;
use crate::input::Input;

/// How many inputs were compared, and what was answered to them.
#[derive(Clone, Debug, Default)]
pub struct Tally {
    pub inputs: usize,
    pub differ: usize,
    /// Inputs by the name of their kind.
    pub kinds: BTreeMap<&'static str, usize>,
    /// Answers by the number of their refusal, 0 for none.
    pub refusals: BTreeMap<u64, usize>,
    /// Verdicts by their code.
    pub codes: BTreeMap<i64, usize>,
}

impl Tally {
    /// Asks two engines the same, counts the input and what the other one answers to it, and gives the first difference.
    pub fn compare(&mut self, one: &impl Engine, other: &impl Engine, kind: &'static str, input: &Input) -> Option<Difference> {
        let (ones, others) = (answers(one, input), answers(other, input));
        self.count(kind, &others);
        let found = difference(&ones, &others);
        self.differ += usize::from(found.is_some());
        found
    }

    /// Counts an input and its answers.
    fn count(&mut self, kind: &'static str, answers: &[Answer]) {
        self.inputs += 1;
        *self.kinds.entry(kind).or_default() += 1;
        for answer in answers {
            *self.refusals.entry(answer.refusal).or_default() += 1;
            if answer.function == "verdict" && answer.refusal == 0 {
                *self.codes.entry(answer.lent[0][0]).or_default() += 1;
            }
        }
    }
}

impl fmt::Display for Tally {
    /// Three lines: inputs by kind, answers by refusal, verdicts by code.
    fn fmt(&self, f: &mut fmt::Formatter<'_>) -> fmt::Result {
        writeln!(f, "inputs by kind: {}", listed(&self.kinds))?;
        writeln!(f, "answers by refusal, 0 for none: {}", listed(&self.refusals))?;
        writeln!(f, "verdicts by code: {}", listed(&self.codes))
    }
}

fn listed(counts: &BTreeMap<impl fmt::Display, usize>) -> String {
    counts.iter().map(|(name, count)| format!("{name}: {count}")).collect::<Vec<_>>().join(", ")
}
