//! The generated inputs reach what they are meant to reach. Only cases that pass the check are looked at, and thicknesses are those that
//! the archive reports.

use std::collections::{BTreeMap, BTreeSet};

use caydubeesh::{kind, slot};
use comparison::answers::{answers, Answer};
use comparison::engines::{Archive, Engine};
use comparison::exact;
use comparison::generator;
use comparison::generator::ranges::LEVEL;
use comparison::input::Input;
use comparison::slices::{place, Slices};

const INPUTS: u64 = 5_000;

/// What must be found in at least so many cases.
const WANTED: [(usize, &[&str]); 3] = [
    (
        400,
        &[
            "weights",
            "more than one layer",
            "flag 0",
            "flag 1",
            "boundary 0",
            "boundary 1",
            "boundary 2",
            "boundary 3",
            "boundary 4",
            "boundary 5",
        ],
    ),
    (
        50,
        &[
            "δ 1",
            "δ 2",
            "δ 40",
            "δ 99",
            "δ 100",
            "fresh weight 990",
            "fresh weight 1000",
            "fresh weight 1010",
            "salt weight 1023",
            "salt weight 1050",
            "weights 5 apart",
            "an interface between two ticks",
            "a salt K between two whole ones",
            "fresh tip with the edge behind",
            "salt tip with the edge behind",
            "fresh tip with more of it behind",
            "salt tip with more of it behind",
            "fresh tip with not more of it behind",
            "salt tip with not more of it behind",
            "fresh tip with none of it behind",
            "salt tip with none of it behind",
            "a pumping well",
            "an injecting well",
            "a screen across the interface",
            "a screen that the water table cuts",
            "an empty block",
            "leakage to an empty block",
            "fresh water becomes salt",
            "salt water becomes fresh",
            "a top that touches the base above",
            "a head at an end of the range",
            "a balance that equals the tolerance",
            "a balance one above the tolerance",
            "a sea that brings water under fresh water",
            "a sea that brings water to salt water alone",
            "a sea that takes fresh water",
            "a sea that takes salt water",
            "a sea that exchanges nothing",
            "a river that brings fresh water",
            "half a litre through a face, to the next block",
            "half a litre through a face, from the next block",
            "half a litre of leakage, up",
            "half a litre of leakage, down",
        ],
    ),
    (
        10,
        &[
            "salt weight 1011",
            "eight layers",
            "512 blocks",
            "fresh tip with an inactive block behind",
            "salt tip with an inactive block behind",
            "a moved head of boundary 3",
            "a moved head of boundary 4",
            "a moved head of boundary 5",
            "a river that brings salt water",
            "less than ten litres of salt water brought",
            "half a litre from a river",
            "half a litre to a river",
        ],
    ),
];

/// The lines of a table that can be other than 0: all but the recharge of salt water.
const LINES: [usize; 17] = [0, 1, 2, 3, 4, 5, 6, 7, 8, 9, 10, 11, 12, 13, 15, 16, 17];

/// A case that passes, with the thickness in ticks of fresh and salt water in each active block.
struct Looked<'a> {
    case: &'a Slices,
    thicknesses: Vec<Option<[i64; 2]>>,
    found: BTreeSet<String>,
}

impl Looked<'_> {
    fn add(&mut self, name: impl Into<String>) {
        self.found.insert(name.into());
    }

    fn look_at_record(&mut self) {
        let record = &self.case.record;
        let (delta, flag, layers) = (record[place::DELTA], record[place::FLAG], record[place::LAYERS]);
        if delta == 0 {
            let [fresh, salt] = self.case.weights();
            self.add("weights");
            self.add(format!("fresh weight {fresh}"));
            self.add(format!("salt weight {salt}"));
            self.add(format!("weights {} apart", salt - fresh));
        } else {
            self.add(format!("δ {delta}"));
        }
        self.add(format!("flag {flag}"));
        for (name, is_so) in
            [("more than one layer", layers > 1), ("eight layers", layers == 8), ("512 blocks", self.thicknesses.len() == 512)]
        {
            if is_so {
                self.add(name);
            }
        }
    }

    fn look_at_block(&mut self, block: usize, [fresh, salt]: [i64; 2]) {
        let (case, slots) = (self.case, self.case.block(block));
        let ([base, top], boundary, pumpage) = (case.span(block), slots[slot::KIND], slots[slot::PUMPAGE]);
        let (screen_bottom, screen_top) = (slots[slot::SCREEN_BOTTOM], slots[slot::SCREEN_TOP]);
        let within = |level: i64| screen_bottom < level && level < screen_top;
        let a_layer = case.columns.len() * case.rows.len();
        let above = (block + a_layer <= case.blocks() && case.is_active(block + a_layer)).then(|| block + a_layer);
        let is_empty = |block: usize| self.thicknesses[block - 1] == Some([0, 0]);
        let moved = |old: usize, new: usize, kind: i64| slots[old] != slots[new] && [kind, kind::BOTH_FIXED].contains(&boundary);
        let [light, heavy] = case.weights();
        let between_ticks = (heavy * slots[slot::NEW_SALT] - light * slots[slot::NEW_FRESH]) % (heavy - light) != 0;
        let facts = [
            ("an interface between two ticks", fresh > 0 && salt > 0 && between_ticks),
            ("a salt K between two whole ones", case.record[place::DELTA] == 0 && slots[slot::K] * heavy % light != 0),
            ("a pumping well", pumpage > 0),
            ("an injecting well", pumpage < 0),
            ("a screen across the interface", fresh > 0 && salt > 0 && within(base + salt)),
            ("a screen that the water table cuts", within(base + salt + fresh)),
            ("an empty block", is_empty(block)),
            ("leakage to an empty block", slots[slot::LEAKANCE] > 0 && above.is_some_and(is_empty)),
            ("a top that touches the base above", above.is_some_and(|above| case.span(above)[0] == top)),
            ("a head at an end of the range", slots[slot::OLD_FRESH..].iter().any(|head| head.abs() == LEVEL)),
        ];
        let has_moved =
            moved(slot::OLD_FRESH, slot::NEW_FRESH, kind::FIXED_FRESH) || moved(slot::OLD_SALT, slot::NEW_SALT, kind::FIXED_SALT);
        self.found.extend(facts.iter().filter(|(_, is_so)| *is_so).map(|(name, _)| name.to_string()));
        self.add(format!("boundary {boundary}"));
        if has_moved {
            self.add(format!("a moved head of boundary {boundary}"));
        }
    }

    /// What a river or sea exchanges with its block, by the table of that block alone.
    fn look_at_boundary(&mut self, block: usize, fresh: i64) {
        let Ok(lines) = Archive.block_table(self.case, block) else { return };
        let boundary = [lines[6], lines[15]];
        let name = match (self.case.block(block)[slot::KIND], boundary.map(i64::signum)) {
            (kind::RIVER, [1, 0]) => "a river that brings fresh water",
            (kind::RIVER, [0, 1]) => "a river that brings salt water",
            (kind::SEA, [0, 1]) if fresh > 0 => "a sea that brings water under fresh water",
            (kind::SEA, [0, 1]) => "a sea that brings water to salt water alone",
            (kind::SEA, [-1, 0]) => "a sea that takes fresh water",
            (kind::SEA, [0, -1]) => "a sea that takes salt water",
            (kind::SEA, [0, 0]) => "a sea that exchanges nothing",
            (kind::SEA, _) => panic!("a sea brings fresh water, or both: {boundary:?}"),
            _ => return,
        };
        self.add(name);
        if matches!(boundary, [0, litres] if (1..10).contains(&litres)) {
            self.add("less than ten litres of salt water brought");
        }
    }

    /// Flows that are exactly half a litre beyond a whole number, forth and back.
    fn look_at_halves(&mut self, block: usize) {
        let (case, face) =
            (self.case, ["half a litre through a face, to the next block", "half a litre through a face, from the next block"]);
        let flows = [
            (exact::lateral(case, block, 0), face),
            (exact::lateral(case, block, 1), face),
            (exact::leakage(case, block), ["half a litre of leakage, up", "half a litre of leakage, down"]),
            (exact::river(case, block), ["half a litre from a river", "half a litre to a river"]),
        ];
        for (parts, [forth, back]) in flows.into_iter().filter_map(|(flow, names)| Some((flow?, names))) {
            if exact::is_half(parts) {
                self.add(if parts > 0 { forth } else { back });
            }
        }
    }

    /// What lies behind the tips of a line, going from its first block to its last.
    fn look_at_tips(&mut self, line: &[usize], fluid: usize) {
        let held = |index: usize| self.thicknesses[line[index] - 1].map(|thickness| thickness[fluid]);
        let mut found = Vec::new();
        for index in 1..line.len() {
            let (Some(holds @ 1..), Some(0)) = (held(index - 1), held(index)) else {
                continue;
            };
            let behind = match index.checked_sub(2).map(held) {
                None => "the edge",
                Some(None) => "an inactive block",
                Some(Some(0)) => "none of it",
                Some(Some(thickness)) if thickness > holds => "more of it",
                Some(Some(_)) => "not more of it",
            };
            found.push(format!("{} tip with {behind} behind", ["fresh", "salt"][fluid]));
        }
        self.found.extend(found);
    }

    fn look_at_answers(&mut self, answers: &[Answer]) {
        let (verdict, table) = (&answers[1], &answers[2]);
        if verdict.refusal == 0 && verdict.lent[0][3] > 0 {
            match verdict.lent[0][3] - self.case.record[place::TOLERANCE] {
                0 => self.add("a balance that equals the tolerance"),
                1 => self.add("a balance one above the tolerance"),
                _ => {}
            }
        }
        if table.refusal == 0 {
            let lines = &table.lent[0][..18];
            self.found.extend((0..18).filter(|&line| lines[line] != 0).map(|line| format!("line {line}")));
            match lines[3].signum() {
                1 => self.add("salt water becomes fresh"),
                -1 => self.add("fresh water becomes salt"),
                _ => {}
            }
        }
    }
}

/// What is found in a case that passes; of a large one only its record.
fn look(case: &Slices, answers: &[Answer]) -> BTreeSet<String> {
    let is_small = case.blocks() <= 64;
    let thicknesses = (1..=case.blocks()).map(|block| if is_small { exact::thickness(case, block) } else { None }).collect();
    let mut looked = Looked { case, thicknesses, found: BTreeSet::new() };
    looked.look_at_record();
    looked.look_at_answers(answers);
    for block in 1..=case.blocks() {
        if let Some(thickness) = looked.thicknesses[block - 1] {
            looked.look_at_block(block, thickness);
            looked.look_at_boundary(block, thickness[0]);
            looked.look_at_halves(block);
        }
    }
    for mut line in if is_small { case.lines() } else { vec![] } {
        for fluid in [0, 1, 0, 1] {
            looked.look_at_tips(&line, fluid);
            line.reverse();
        }
    }
    looked.found
}

#[test]
fn cases_that_pass_have_all_that_is_wanted() {
    let mut cases: BTreeMap<String, usize> = BTreeMap::new();
    for number in 1..=INPUTS {
        let (_, input) = generator::input(1, number);
        let answers = answers(&Archive, &input);
        let Input::Case(asked) = &input else { continue };
        if answers[0].refusal == 0 {
            look(&asked.case, &answers).into_iter().for_each(|name| *cases.entry(name).or_default() += 1);
        }
    }
    let count = |name: &str| cases.get(name).copied().unwrap_or(0);
    for (least, names) in WANTED {
        for name in names {
            assert!(count(name) >= least, "{name}: {} of at least {least}", count(name));
        }
    }
    for line in LINES {
        assert!(count(&format!("line {line}")) >= 100, "line {line}: {}", count(&format!("line {line}")));
    }
    assert_eq!(count("line 14"), 0);
}
