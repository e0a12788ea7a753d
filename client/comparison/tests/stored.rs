//! Every stored vector, asked of both engines: each answer is the one that stands in the repository.

use std::fs;
use std::path::Path;

use comparison::answers::{answers, Answer};
use comparison::engines::{Archive, Reference};
use comparison::input::Input;
use comparison::session;
use comparison::slices::SLOTS;
use comparison::stored::{vectors, Stored, Vectors};
use comparison::FILL;

/// The lines that say what a function answered.
type Told = fn(&Answer) -> String;

/// Holds both engines to vectors whose lines say what certain functions answer.
fn hold_answers(stored: &[Stored], functions: &[(&str, Told)]) {
    let printed = |answers: Vec<Answer>| -> String {
        let answer = |name: &str| answers.iter().find(|answer| answer.function == name).expect("the function is asked").clone();
        functions.iter().map(|(name, told)| told(&answer(name))).collect()
    };
    for (place, Stored { input, printed: expected }) in stored.iter().enumerate() {
        assert_eq!(printed(answers(&Archive, input)), *expected, "the archive on number {}, {input:?}", place + 1);
        assert_eq!(printed(answers(&Reference, input)), *expected, "the reference on number {}, {input:?}", place + 1);
    }
}

/// The refusal, or the word for an answer and what follows it.
fn told(answer: &Answer, word: &str, numbers: &[i64]) -> String {
    match answer.refusal {
        0 => format!("{word}{}\n", numbers.iter().map(|number| format!(" {number}")).collect::<String>()),
        number => format!("refused {number} {}\n", answer.block),
    }
}

#[test]
fn there_are_so_many() {
    let Vectors { cases, reads, slices, tables, reports, doubles } = vectors();
    assert_eq!([&cases, &reads, &slices, &tables, &reports, &doubles].map(Vec::len), [1_027, 262, 477, 335, 214, 407]);
}

#[test]
fn slices() {
    let check = |answer: &Answer| told(answer, "passed", &[]);
    let verdict = |answer: &Answer| told(answer, "verdict", &answer.lent[0]);
    hold_answers(&vectors().slices, &[("check", check), ("verdict", verdict)]);
}

#[test]
fn tables() {
    hold_answers(&vectors().tables, &[("zone_table", |answer| told(answer, "table", &answer.lent[0]))]);
}

#[test]
fn reports() {
    let report = |answer: &Answer| match answer.refusal {
        0 => format!("report{}\n", answer.lent[0].iter().map(|&bits| format!(" {}", bits as u64)).collect::<String>()),
        _ => told(answer, "", &[]),
    };
    hold_answers(&vectors().reports, &[("report", report)]);
}

#[test]
fn reads() {
    hold_answers(&vectors().reads, &[("read", read)]);
}

/// What was read, and how many numbers of widths and slots are as they were.
fn read(answer: &Answer) -> String {
    let [record, columns, rows, slots] = answer.lent.as_slice() else { panic!("four slices are lent") };
    let kept = [columns, rows, slots].iter().flat_map(|slice| slice.iter()).filter(|&&number| number == FILL).count();
    if answer.refusal != 0 {
        return format!("{}kept {kept}\n", told(answer, "", &[]));
    }
    let counts = [record[0], record[1], record[..3].iter().product::<i64>() * SLOTS as i64].map(|count| count as usize);
    let parts = [("columns", columns), ("rows", rows), ("slots", slots)];
    let read: String = parts.iter().zip(counts).map(|((word, slice), count)| told(answer, word, &slice[..count])).collect();
    format!("{}{read}kept {kept}\n", told(answer, "read", record))
}

#[test]
fn doubles() {
    let tick = |answer: &Answer| told(answer, "tick", &answer.lent[0]);
    let sea = |answer: &Answer| told(answer, "set 2", &answer.lent[0]);
    hold_answers(&vectors().doubles, &[("tick", tick), ("floor_tick", sea)]);
}

/// Holds what both engines' answers make of an input of the program, and what the reference itself prints for it, to what is stored.
fn hold_printed(file: &[u8], printed: &str) {
    assert_eq!(session::printed(&Archive, file), printed, "{file:?}");
    assert_eq!(session::printed(&Reference, file), printed, "{file:?}");
    assert_eq!(reference::printed(file), printed, "{file:?}");
}

#[test]
fn inputs_of_the_program() {
    for Stored { input, printed } in vectors().cases {
        let Input::File(file) = input else { panic!("an input of the program is a file") };
        hold_printed(&file.bytes, &printed);
    }
}

#[test]
fn examples() {
    let folder = Path::new(env!("CARGO_MANIFEST_DIR")).join("../../examples");
    let paths = fs::read_dir(folder).unwrap().map(|entry| entry.unwrap().path());
    let cases: Vec<_> = paths.filter(|path| path.extension().is_some_and(|ending| ending == "case")).collect();
    assert!(cases.len() >= 7);
    for case in cases {
        hold_printed(&fs::read(&case).unwrap(), &fs::read_to_string(case.with_extension("out")).unwrap());
    }
}
