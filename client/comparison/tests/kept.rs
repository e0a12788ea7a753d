//! Inputs as lines of text: what is written is read back, and so are the lines of the repository's own vectors.

use comparison::dice::Dice;
use comparison::generator::KINDS;
use comparison::input::{Asked, File, Input, Level, Tuned, READ};
use comparison::kept::{input, line};
use comparison::slices::Slices;

#[test]
fn what_is_written_is_read_back() {
    for kind in KINDS {
        for number in 1..=30 {
            let made = (kind.make)(&mut Dice::of_input(3, number));
            assert_eq!(input(&line(&made)), Ok(made));
        }
    }
}

#[test]
fn records_of_any_length_are_read_back() {
    for length in 0..12 {
        let case = Slices { record: (1..=length).collect(), columns: vec![], rows: vec![], slots: vec![] };
        let made = Input::Case(Asked { number: usize::MAX, ..Asked::of(case) });
        assert_eq!(input(&line(&made)), Ok(made));
    }
}

#[test]
fn the_printed_case_has_this_line() {
    let mut case = Slices::printed();
    case.slots.truncate(3);
    let asked = Asked { case, marks: vec![1, 0], number: 2, room: [4, 18, 5] };
    let written = "{\"header\": [2, 1, 1, 40, 0, 0, 0, 30, 5], \"cw\": [100, 100], \"rw\": [100], \"slots\": [10000, -204800, 245760], \
                   \"marks\": [1, 0], \"block\": 2, \"room\": [4, 18, 5]}";
    assert_eq!(line(&asked.into()), written);
    let tuned = Tuned { case: Slices { slots: vec![0; 16], ..Slices::empty(1, 1, 1) }, block: 1, heads: [1, -2, 3, -4] };
    let zeros = ["0"; 16].join(", ");
    let written = format!(
        "{{\"header\": [1, 1, 1, 40, 0, 0, 0, 30, 5], \"cw\": [100], \"rw\": [100], \"slots\": [{zeros}], \"block\": 1, \"tuned\": [1, -2, 3, -4]}}"
    );
    assert_eq!(line(&tuned.into()), written);
    let file = File { bytes: vec![0xAC, 0x02], room: [9, 1, 2, 3] };
    assert_eq!(line(&file.into()), "{\"file\": \"ac02\", \"caps\": [1, 2, 3], \"room\": [9]}");
    let level = Level { bits: 1 << 63, tick: -5 };
    assert_eq!(line(&level.into()), "{\"bits\": \"8000000000000000\", \"shown\": -5}");
}

#[test]
fn what_a_line_lacks_is_usual() {
    let file = input("{\"why\": \"a \\\"file\\\"\", \"file\": \"\", \"refusal\": null}");
    assert_eq!(file, Ok(Input::File(File { bytes: vec![], room: READ })));
    let case = input("{\"header\": [1], \"cw\": [2], \"rw\": [3], \"slots\": []}");
    let slices = Slices { record: vec![1], columns: vec![2], rows: vec![3], slots: vec![] };
    assert_eq!(case, Ok(Asked::of(slices).into()));
}

#[test]
fn lines_of_the_repositorys_vectors_are_read() {
    let files = [
        include_str!("../../../examples/vectors/metres.jsonl"),
        include_str!("../../../examples/vectors/reads.jsonl"),
        include_str!("../../../examples/vectors/reports.jsonl"),
        include_str!("../../../examples/vectors/slices.jsonl"),
        include_str!("../../../examples/vectors/tables.jsonl"),
    ];
    for text in files.iter().flat_map(|file| file.lines()) {
        assert!(input(text).is_ok(), "{:?}: {text}", input(text));
    }
}

#[test]
fn a_line_of_another_form_is_an_error() {
    let bad = [
        "",
        "{",
        "[]",
        "{}",
        "{} 1",
        "{\"file\": 5}",
        "{\"file\": \"abc\"}",
        "{\"file\": \"xy\"}",
        "{\"file\": \"\", \"caps\": [1, 2]}",
        "{\"file\": \"\", \"caps\": [1, 2, -3]}",
        "{\"bits\": \"\"}",
        "{\"bits\": \"0\", \"shown\": 9223372036854775808}",
        "{\"header\": [1, 2, 3, 4, 5, 0, \"0\"], \"cw\": [], \"rw\": [], \"slots\": []}",
        "{\"header\": [1], \"cw\": [], \"rw\": []}",
        "{\"header\": [1.5], \"cw\": [], \"rw\": [], \"slots\": []}",
        "{\"header\": [1], \"cw\": [], \"rw\": [], \"slots\": [], \"block\": -1}",
        "{\"header\": [1], \"cw\": [], \"rw\": [], \"slots\": [], \"block\": 1, \"tuned\": [1, 2, 3, 4]}",
        "{\"header\": [1], \"cw\": [], \"rw\": [], \"slots\": [0, 0, 0, 0, 0, 0, 0, 0, 0, 0, 0, 0, 0, 0, 0, 0], \"tuned\": [1, 2, 3, 4]}",
        "{\"header\": [1], \"cw\": [], \"rw\": [], \"slots\": [0, 0, 0, 0, 0, 0, 0, 0, 0, 0, 0, 0, 0, 0, 0, 0], \"block\": 1, \"tuned\": [1, 2]}",
    ];
    for text in bad {
        assert!(input(text).is_err(), "{text}");
    }
}
