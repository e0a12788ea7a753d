//! Random cases, whole and damaged: what is promised of any input.

mod common;

use caydubeesh::{raw, Case, RECORD};
use common::Wrapped;
use comparison::dice::Dice;
use comparison::generator::faults::damage;
use comparison::generator::files::damage_bytes;
use comparison::generator::grid::grid;
use comparison::generator::shapes;
use comparison::slices::{place, Slices};
use comparison::{FILL, NO_BLOCK};

const ROUNDS: usize = 4_000;

/// A case whose numbers are in range and whose layers do not overlap.
fn any_grid(dice: &mut Dice) -> Slices {
    let shape = if dice.one_in(4) { shapes::middle(dice) } else { shapes::small(dice) };
    grid(dice, shape)
}

/// What the functions say of a case: the numbers of their refusals with their blocks, and the answers, which stay as they were filled beside a refusal.
struct Said {
    check: (u64, usize),
    verdict: (u64, usize, Vec<i64>),
    table: (u64, usize, Vec<i64>),
    report: (u64, usize, Vec<f64>),
}

/// Asks for all of them, with room for the answers that may be too short or to spare, and holds that room to what is promised of it.
fn ask(dice: &mut Dice, case: &Slices, marks: &[i64], number: usize) -> Said {
    let Slices { record, columns, rows, slots } = case;
    let mut room = |need: usize| if dice.one_in(10) { dice.below(need + 3) } else { need };
    let (mut verdict, mut lines, mut metres) = (vec![FILL; room(4)], vec![FILL; room(18)], vec![FILL as f64; room(5)]);
    let mut blocks = [NO_BLOCK; 4];
    let [a, b, c, d] = &mut blocks;
    let numbers = [
        raw::check(record, columns, rows, slots, a),
        raw::verdict(record, columns, rows, slots, &mut verdict, b),
        raw::zone_table(record, columns, rows, slots, marks, &mut lines, c),
        raw::report(record, columns, rows, slots, number, &mut metres, d),
    ];
    let fills = |from: usize, slice: &[i64]| slice.iter().skip(from).all(|&left| left == FILL);
    assert!(fills(if numbers[1] == 0 { 4 } else { 0 }, &verdict));
    assert!(fills(if numbers[2] == 0 { 18 } else { 0 }, &lines));
    assert!(metres.iter().skip(if numbers[3] == 0 { 5 } else { 0 }).all(|&left| left == FILL as f64));
    Said {
        check: (numbers[0], blocks[0]),
        verdict: (numbers[1], blocks[1], verdict),
        table: (numbers[2], blocks[2], lines),
        report: (numbers[3], blocks[3], metres),
    }
}

/// Holds what was said to what is promised of any case.
fn hold(case: &Slices, marks: &[i64], number: usize, said: &Said) {
    let (refusal, block) = said.check;
    assert!([0, 3, 4, 5, 6, 7, 9, 10].contains(&refusal));
    assert!(if [6, 9, 10].contains(&refusal) { (1..=512).contains(&block) } else { block == 0 });
    // A record that is neither short nor refused with 3 has a number of blocks.
    let blocks = if [3, 7].contains(&refusal) { 0 } else { case.record[..3].iter().product::<i64>() as usize };
    hold_verdict(case, blocks, said);
    hold_table(marks, blocks, said);
    hold_report(case, blocks, number, said);
}

fn hold_verdict(case: &Slices, blocks: usize, said: &Said) {
    let (refusal, block, numbers) = &said.verdict;
    assert_eq!((*refusal, *block), if numbers.len() < 4 && said.check.0 != 3 { (7, 0) } else { said.check });
    if *refusal == 0 {
        let [code, first, count, largest] = numbers[..4].try_into().unwrap();
        let tolerance = case.record[place::TOLERANCE];
        assert!([0, 21, 22, 23, 24].contains(&code));
        assert!((0..=blocks as i64).contains(&first) && (0..=1_024).contains(&count) && largest >= 0);
        assert_eq!((first == 0, count == 0), (code == 0, code == 0));
        assert!(match code {
            0 => largest <= tolerance,
            21 | 22 => largest == 0,
            _ => largest > tolerance,
        });
    }
}

fn hold_table(marks: &[i64], blocks: usize, said: &Said) {
    let (refusal, block, lines) = &said.table;
    let is_zone = || marks[..blocks].iter().all(|mark| [0, 1].contains(mark));
    let expected = match said.check {
        (3 | 7, _) => Some(said.check),
        _ if marks.len() < blocks || lines.len() < 18 => Some((7, 0)),
        (4.., _) => Some(said.check),
        _ if !is_zone() => Some((11, 0)),
        _ => None,
    };
    match expected {
        Some(expected) => assert_eq!((*refusal, *block), expected),
        None if *refusal == 13 => assert!((1..=blocks).contains(block)),
        None => assert_eq!((*refusal, *block), (0, 0)),
    }
    if expected.is_none() && said.verdict.0 == 0 {
        // A dry well is code 22, unless a fixed head moved.
        let (code, first) = (said.verdict.2[0], said.verdict.2[1]);
        assert!(code == 21 || (*refusal == 13) == (code == 22));
        assert!(code != 22 || *block as i64 == first);
    }
    if *refusal == 0 {
        for fluid in lines[..18].chunks(9) {
            let [storage, edge_in, edge_out, converted, wells, recharge, boundary, supply, error] = fluid.try_into().unwrap();
            assert_eq!(storage + error, edge_in - edge_out + converted + wells + recharge + boundary + supply);
            assert!(edge_in >= 0 && edge_out >= 0 && recharge >= 0);
        }
        assert_eq!(lines[3], -lines[12]);
    }
}

fn hold_report(case: &Slices, blocks: usize, number: usize, said: &Said) {
    let (refusal, block, metres) = &said.report;
    let expected = match said.check {
        (3, _) => said.check,
        _ if metres.len() < 5 => (7, 0),
        (1.., _) => said.check,
        _ if number == 0 || number > blocks || case.block(number)[0] == 0 => (14, number),
        _ => (0, 0),
    };
    assert_eq!((*refusal, *block), expected);
    if *refusal == 0 {
        let (thickness, heads) = (case.block(number)[2], &case.block(number)[14..]);
        let [light, heavy] = case.weights();
        let zeta = (heavy * heads[1] - light * heads[0]).div_euclid(heavy - light);
        assert_eq!(metres[..3], [heads[0], heads[1], zeta].map(|tick| tick as f64 / 4_096.0));
        let saturated = metres[3] + metres[4];
        assert!(metres[3] >= 0.0 && metres[4] >= 0.0 && saturated <= thickness as f64 / 4_096.0);
        assert!(case.record[place::FLAG] == 1 || saturated == thickness as f64 / 4_096.0);
    }
}

#[test]
fn any_case() {
    let mut dice = Dice(4);
    let mut answered = [0; 15];
    let mut codes = [0; 25];
    for _ in 0..ROUNDS {
        let mut case = any_grid(&mut dice);
        let mut marks: Vec<i64> = (0..case.blocks()).map(|_| dice.from(0, 1)).collect();
        if dice.one_in(2) {
            damage(&mut dice, &mut case, &mut marks);
        }
        let number = if dice.one_in(20) { dice.wild() as usize } else { dice.below(case.blocks() + 2) };
        let before = (case.clone(), marks.clone());
        let said = ask(&mut dice, &case, &marks, number);
        hold(&case, &marks, number, &said);
        assert_eq!((case, marks), before);
        for refusal in [said.check.0, said.verdict.0, said.table.0, said.report.0] {
            answered[refusal as usize] += 1;
        }
        if said.verdict.0 == 0 {
            codes[said.verdict.2[0] as usize] += 1;
        }
    }
    // Each refusal of a case and each code was met, so that nothing above was asked of nothing.
    assert!([0, 3, 4, 5, 6, 7, 9, 10, 11, 13, 14].iter().all(|&number| answered[number] > 0), "{answered:?}");
    assert!([0, 21, 22, 23, 24].iter().all(|&code| codes[code] > 0), "{codes:?}");
}

#[test]
fn only_wild_numbers() {
    let mut dice = Dice(5);
    for _ in 0..ROUNDS {
        let mut wild = |most: usize| -> Vec<i64> { (0..dice.below(most)).map(|_| dice.wild()).collect() };
        let case = Slices { record: wild(RECORD + 2), columns: wild(4), rows: wild(4), slots: wild(70) };
        let (marks, number) = (wild(6), dice.roll() as usize);
        let said = ask(&mut dice, &case, &marks, number);
        hold(&case, &marks, number, &said);
        assert_ne!(said.check.0, 0);
    }
}

/// The lines of two zones that make up the whole grid add to those of the whole.
fn hold_sums(one: [i64; 9], other: [i64; 9], whole: [i64; 9]) {
    for line in [0, 4, 5, 6, 7, 8] {
        assert_eq!(one[line] + other[line], whole[line]);
    }
    assert_eq!((whole[1], whole[2]), (0, 0));
    assert_eq!(one[1] - one[2] + one[3] + other[1] - other[2] + other[3], whole[3]);
}

/// A zone's error in a fluid is no more than the largest balance for each of its free places.
fn hold_error(case: &Slices, marks: &[i64], fluid: usize, error: i64) {
    let is_free = |block: usize| case.block(block)[0] > 0 && ![5, 3 + fluid as i64].contains(&case.block(block)[9]);
    let places = (1..=case.blocks()).filter(|&block| marks[block - 1] == 1 && is_free(block)).count();
    let [code, _, _, largest] = case.verdict().unwrap();
    assert!(code == 21 || error.abs() <= largest * places as i64);
}

#[test]
fn tables_add() {
    let mut dice = Dice(6);
    let mut added = 0;
    for _ in 0..ROUNDS {
        let case = any_grid(&mut dice);
        let one: Vec<i64> = (0..case.blocks()).map(|_| dice.from(0, 1)).collect();
        let other: Vec<i64> = one.iter().map(|mark| 1 - mark).collect();
        let all = vec![1; case.blocks()];
        let (Ok(one_table), Ok(other_table), Ok(whole)) = (case.table(&one), case.table(&other), case.table(&all)) else {
            assert!(case.check().is_err() || case.table(&all).is_err());
            continue;
        };
        for fluid in 0..2 {
            hold_sums(one_table[fluid], other_table[fluid], whole[fluid]);
            hold_error(&case, &one, fluid, one_table[fluid][8]);
        }
        added += 1;
    }
    assert!(added > ROUNDS / 4);
}

#[test]
fn weights_in_the_ratio_of_a_whole_delta_give_its_answers() {
    let mut dice = Dice(9);
    let mut judged = 0;
    for _ in 0..ROUNDS {
        let case = any_grid(&mut dice);
        let delta = dice.pick(&[20, 25, 40, 50]);
        let (whole, weights) = (case.with_density([delta, 0, 0]), case.with_density([0, 1_000, 1_000 + 1_000 / delta]));
        let marks: Vec<i64> = (0..case.blocks()).map(|_| dice.from(0, 1)).collect();
        assert_eq!((whole.check(), whole.verdict()), (weights.check(), weights.verdict()));
        assert_eq!((whole.table(&marks), whole.report(1)), (weights.table(&marks), weights.report(1)));
        judged += usize::from(whole.verdict().is_ok());
    }
    assert!(judged > ROUNDS / 4);
}

#[test]
fn files_written_are_read_back() {
    let mut dice = Dice(7);
    let mut read = 0;
    for _ in 0..ROUNDS {
        let case = any_grid(&mut dice);
        let found = Case::read(&case.file());
        assert_eq!(found.clone().map(|_| ()), case.check());
        if let Ok(found) = found {
            assert_eq!((found.record, found.columns, found.rows, found.slots), (case.record(), case.columns, case.rows, case.slots));
            read += 1;
        }
    }
    assert!(read > ROUNDS / 4);
}

#[test]
fn damaged_files() {
    let mut dice = Dice(8);
    let mut refused = [0; 11];
    for _ in 0..ROUNDS {
        let mut file = any_grid(&mut dice).file();
        for _ in 0..=dice.below(3) {
            damage_bytes(&mut dice, &mut file);
        }
        let mut room = |need: usize| if dice.one_in(10) { dice.below(need) } else { need };
        let lengths = [room(RECORD), room(64), room(64), room(8_192)];
        let mut lent = lengths.map(|length| vec![FILL; length]);
        let mut block = NO_BLOCK;
        let [record, columns, rows, slots] = &mut lent;
        let number = raw::read(&file, record, columns, rows, slots, &mut block);
        assert!(number <= 10);
        if number == 0 {
            let mut checked = NO_BLOCK;
            assert_eq!((raw::check(record, columns, rows, slots, &mut checked), checked, block), (0, 0, 0));
        } else {
            assert!(if [6, 9, 10].contains(&number) { (1..=512).contains(&block) } else { block == 0 });
            assert_eq!(lent, lengths.map(|length| vec![FILL; length]));
        }
        refused[number as usize] += 1;
    }
    assert!(refused.iter().all(|&times| times > 0), "{refused:?}");
}
