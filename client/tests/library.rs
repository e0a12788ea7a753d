//! What stands around the proved functions: words, names, versions, places, and the methods of a case.

use std::collections::BTreeMap;

use caydubeesh::{code, kind, refused, slot, words, Case, Place, Refusal, Verdict, SLOTS};

const HEADER: &str = include_str!("../include/caydubeesh.h");
const PRINTED: &[u8] = include_bytes!("../../examples/printed.case");

/// The numbers and words of client/src/words.def.
fn written() -> BTreeMap<u64, &'static str> {
    let lines = include_str!("../src/words.def").lines().filter_map(|line| line.strip_prefix("WORDS("));
    let pairs = lines.map(|line| line.strip_suffix("\")").unwrap().split_once(", \"").unwrap());
    pairs.map(|(number, words)| (number.parse().unwrap(), words)).collect()
}

#[test]
fn every_number_has_its_words() {
    let written = written();
    assert!(written.keys().copied().eq((0..=14).chain(20..=24)));
    for number in 0..100 {
        assert_eq!(words(number), *written.get(&number).unwrap_or(&"no refusal and no code has this number"));
    }
    assert_eq!(words(u64::MAX), words(99));
    assert_eq!(Refusal { number: 6, block: 3 }.to_string(), "refused 6 3: a slot is out of range");
    assert_eq!(Verdict { code: code::DRY_WELL, block: 1, count: 1, largest: 0 }.words(), "a well is dry");
}

#[test]
fn the_header_has_the_same_words() {
    let flat = HEADER.split_whitespace().collect::<Vec<_>>().join(" ");
    for words in written().values() {
        assert!(flat.contains(&format!("/* {words} */")), "{words}");
    }
}

#[test]
fn the_version_is_one() {
    let version = include_str!("../../VERSION").trim();
    assert_eq!(caydubeesh::version(), version);
    assert_eq!(env!("CARGO_PKG_VERSION"), version);
    let parts: Vec<&str> = version.split('.').collect();
    for (name, part) in ["MAJOR", "MINOR", "PATCH"].iter().zip(parts) {
        assert!(HEADER.contains(&format!("#define CAYDUBEESH_VERSION_{name} {part}\n")));
    }
    assert!(include_str!("../../CHANGELOG.md").contains(&format!("\n## {version}\n")));
}

/// The numbers that the header gives to names with a certain beginning, in its order.
fn in_header(start: &str) -> Vec<(&'static str, i64)> {
    let lines = HEADER.lines().filter_map(|line| line.trim().strip_prefix(start)?.split_once(" = "));
    lines.map(|(name, rest)| (name, rest.split([',', ' ']).next().unwrap().parse().unwrap())).collect()
}

macro_rules! named {
    ($module:ident: $($name:ident)*) => { vec![$((stringify!($name), $module::$name as i64)),*] };
}

#[test]
fn names_are_the_headers() {
    let slots = named![slot: K BASE THICKNESS POROSITY LEAKANCE RECHARGE PUMPAGE SCREEN_BOTTOM SCREEN_TOP KIND LEVEL BOUNDARY_LEAKANCE
        OLD_FRESH OLD_SALT NEW_FRESH NEW_SALT];
    assert_eq!(in_header("CAYDUBEESH_SLOT_"), slots);
    assert!(slots.iter().map(|(_, place)| *place).eq(0..SLOTS as i64));
    let kinds = named![kind: NONE RIVER SEA FIXED_FRESH FIXED_SALT BOTH_FIXED];
    assert_eq!(in_header("CAYDUBEESH_KIND_"), kinds);
    let codes = named![code: ACCEPTED NOT_JUDGED HEAD_MOVED DRY_WELL FRESH_BALANCE SALT_BALANCE];
    assert_eq!(in_header("CAYDUBEESH_CODE_"), codes);
    let refusals = named![refused: END FORM COUNT TERM WIDTH SLOT ROOM BYTES_FOLLOW OVERLAP CONDUCTANCE MARK METRES DRY_WELL NO_BLOCK];
    assert_eq!(in_header("CAYDUBEESH_REFUSED_"), refusals);
    assert!(refusals.iter().map(|(_, number)| *number).eq(1..=14));
}

#[test]
fn a_block_and_its_place() {
    let mut case = Case::read(PRINTED).unwrap();
    (case.record.columns, case.record.rows, case.record.layers) = (3, 2, 2);
    assert_eq!(case.blocks(), 12);
    assert_eq!(case.place(11), Some(Place { layer: 2, row: 2, column: 2 }));
    let mut number = 0;
    for (layer, row, column) in (1..=2).flat_map(|layer| (1..=2).flat_map(move |row| (1..=3).map(move |column| (layer, row, column)))) {
        number += 1;
        let place = Place { layer, row, column };
        assert_eq!((case.place(number), case.block(place)), (Some(place), Some(number)));
    }
    assert_eq!([0, 13, usize::MAX].map(|block| case.place(block)), [None; 3]);
    let outside = [(0, 1, 1), (3, 1, 1), (1, 0, 1), (1, 3, 1), (1, 1, 0), (1, 1, 4)];
    assert_eq!(outside.map(|(layer, row, column)| case.block(Place { layer, row, column })), [None; 6]);
    case.record.rows = i64::MAX;
    assert_eq!((case.blocks(), case.place(1)), (0, None));
}

#[test]
fn methods_say_what_the_functions_say() {
    let case = Case::read(PRINTED).unwrap();
    let Case { record, columns, rows, slots } = &case;
    assert_eq!(case.check(), Ok(()));
    assert_eq!(case.verdict(), caydubeesh::verdict(record, columns, rows, slots));
    assert!(case.verdict().unwrap().is_accepted());
    assert_eq!(case.table(&[0, 1]), caydubeesh::zone_table(record, columns, rows, slots, &[0, 1]));
    assert_eq!(case.whole_table(), case.table(&[1, 1]));
    assert_eq!(case.layer_table(1), case.whole_table());
    assert_eq!(case.layer_table(2), case.table(&[0, 0]));
    assert_eq!(case.report(2), caydubeesh::report(record, columns, rows, slots, 2));
    assert_eq!(case.slots_of(2).map(|slots| slots[slot::PUMPAGE]), Some(150));
    assert_eq!((case.slots_of(0), case.slots_of(3)), (None, None));
    assert_eq!(case.report(3), Err(Refusal { number: refused::NO_BLOCK, block: 3 }));
}
