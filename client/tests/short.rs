//! Slices that are too short, and slices with room to spare. Memory is filled before a call, and compared as a whole after it.

use caydubeesh::{raw, RECORD};
use comparison::slices::{place, Slices};
use comparison::{FILL, NO_BLOCK};

const MARKS: [i64; 2] = [1, 1];

/// The case with its four slices cut or filled up to these lengths.
fn lent(lengths: [usize; 4]) -> Slices {
    let mut case = Slices::printed();
    case.record.resize(lengths[0], FILL);
    case.columns.resize(lengths[1], FILL);
    case.rows.resize(lengths[2], FILL);
    case.slots.resize(lengths[3], FILL);
    case
}

const NEED: [usize; 4] = [RECORD, 2, 1, 32];

/// Every choice of lengths in which one of the four slices is too short.
fn short_lengths() -> impl Iterator<Item = [usize; 4]> {
    (0..4).flat_map(|place| {
        (0..NEED[place]).map(move |length| {
            let mut lengths = NEED;
            lengths[place] = length;
            lengths
        })
    })
}

/// What the four functions that take a case say of it. Each answer must stay as it was filled, and `block` be written.
fn refusals(case: &Slices) -> [u64; 4] {
    let before = case.clone();
    let Slices { record, columns, rows, slots } = case;
    let mut said = [0; 4];
    let mut block = NO_BLOCK;
    said[0] = raw::check(record, columns, rows, slots, &mut block);
    assert_eq!(block, 0);
    let (mut verdict, mut block) = ([FILL; 6], NO_BLOCK);
    said[1] = raw::verdict(record, columns, rows, slots, &mut verdict, &mut block);
    assert_eq!((verdict, block), ([FILL; 6], 0));
    let (mut lines, mut block) = ([FILL; 20], NO_BLOCK);
    said[2] = raw::zone_table(record, columns, rows, slots, &MARKS, &mut lines, &mut block);
    assert_eq!((lines, block), ([FILL; 20], 0));
    let (mut metres, mut block) = ([FILL as f64; 7], NO_BLOCK);
    said[3] = raw::report(record, columns, rows, slots, 1, &mut metres, &mut block);
    assert_eq!((metres, block), ([FILL as f64; 7], 0));
    assert_eq!(*case, before);
    said
}

#[test]
fn a_short_case_is_7() {
    for lengths in short_lengths() {
        assert_eq!(refusals(&lent(lengths)), [7; 4], "{lengths:?}");
    }
}

#[test]
fn empty_slices_are_7() {
    assert_eq!(refusals(&lent([0; 4])), [7; 4]);
}

#[test]
fn a_short_record_comes_before_all_else() {
    let mut case = lent([6, 0, 0, 0]);
    case.record.fill(i64::MIN);
    assert_eq!(refusals(&case), [7; 4]);
}

#[test]
fn the_counts_come_before_short_widths_and_slots() {
    for lengths in [[RECORD, 0, 0, 0], [RECORD, 2, 1, 31]] {
        assert_eq!(refusals(&lent(lengths).with_record(place::COLUMNS, 0)), [3; 4]);
        assert_eq!(refusals(&lent(lengths).with_record(place::DELTA, 0)), [7; 4]);
    }
}

/// Cases with what each is refused with where marks or what is lent for the answer is too short: 7 after 3 and before all else.
fn cases_for_a_short_answer() -> [(Slices, u64); 9] {
    let case = Slices::printed();
    [
        (case.clone(), 7),
        (case.with_record(place::COLUMNS, 0), 3),
        (case.with_record(place::LAYERS, 513), 3),
        (case.with_record(place::DELTA, 0), 7),
        (case.with_record(place::TOLERANCE, -1), 7),
        (Slices { columns: vec![0; 2], ..case.clone() }, 7),
        (Slices { columns: vec![], ..case.clone() }, 7),
        (case.with(1, 0, -1), 7),
        (Slices { record: vec![0; RECORD - 1], ..case }, 7),
    ]
}

/// What the verdict is refused with where this much is lent for it.
fn verdict_refusal(case: &Slices, length: usize) -> u64 {
    let Slices { record, columns, rows, slots } = case;
    let (mut verdict, mut block) = (vec![FILL; length], NO_BLOCK);
    let number = raw::verdict(record, columns, rows, slots, &mut verdict, &mut block);
    assert_eq!((verdict, block), (vec![FILL; length], 0));
    number
}

#[test]
fn a_short_verdict_is_7_after_3() {
    for (case, number) in cases_for_a_short_answer() {
        assert_eq!([0, 1, 2, 3].map(|length| verdict_refusal(&case, length)), [number; 4], "{case:?}");
    }
}

/// What a table is refused with where so many marks and so many lines are lent.
fn table_refusal(case: &Slices, marks: &[i64], length: usize) -> u64 {
    let Slices { record, columns, rows, slots } = case;
    let (mut lines, mut block) = (vec![FILL; length], NO_BLOCK);
    let number = raw::zone_table(record, columns, rows, slots, marks, &mut lines, &mut block);
    assert_eq!((lines, block), (vec![FILL; length], 0));
    number
}

#[test]
fn a_short_table_is_7_after_3() {
    for (case, number) in cases_for_a_short_answer() {
        assert!((0..18).all(|length| table_refusal(&case, &MARKS, length) == number), "{case:?}");
        // 7 comes before 11.
        assert_eq!(table_refusal(&case, &[2, 2], 17), number);
    }
}

#[test]
fn short_marks_are_7_after_3() {
    for (case, number) in cases_for_a_short_answer() {
        assert_eq!([0, 1].map(|marks| table_refusal(&case, &MARKS[..marks], 18)), [number; 2], "{case:?}");
        assert_eq!(table_refusal(&case, &[], 0), number);
    }
}

/// What the report of a block is refused with where this much is lent for it.
fn report_refusal(case: &Slices, number: usize, length: usize) -> u64 {
    let Slices { record, columns, rows, slots } = case;
    let (mut metres, mut block) = (vec![0.5; length], NO_BLOCK);
    let refusal = raw::report(record, columns, rows, slots, number, &mut metres, &mut block);
    assert_eq!((metres, block), (vec![0.5; length], 0));
    refusal
}

#[test]
fn a_short_report_is_7_after_3() {
    for (case, refusal) in cases_for_a_short_answer() {
        for number in [0, 1, usize::MAX] {
            assert_eq!([0, 1, 2, 3, 4].map(|length| report_refusal(&case, number, length)), [refusal; 5], "{case:?}");
        }
    }
}

#[test]
fn room_to_spare_is_neither_read_nor_written() {
    let Slices { record, columns, rows, slots } = lent([RECORD + 2, 5, 4, 50]);
    let mut block = NO_BLOCK;
    assert_eq!((raw::check(&record, &columns, &rows, &slots, &mut block), block), (0, 0));
    let (mut verdict, mut block) = ([FILL; 6], NO_BLOCK);
    assert_eq!(raw::verdict(&record, &columns, &rows, &slots, &mut verdict, &mut block), 0);
    assert_eq!((verdict, block), ([0, 0, 0, 4, FILL, FILL], 0));
    let (mut lines, mut block) = ([FILL; 20], NO_BLOCK);
    assert_eq!(raw::zone_table(&record, &columns, &rows, &slots, &[1, 1, FILL], &mut lines, &mut block), 0);
    assert_eq!((lines, block), ([0, 0, 0, 0, -150, 0, 0, 146, -4, 0, 0, 0, 0, 0, 0, 0, 0, 0, FILL, FILL], 0));
    let (mut metres, mut block) = ([0.5; 7], NO_BLOCK);
    assert_eq!(raw::report(&record, &columns, &rows, &slots, 1, &mut metres, &mut block), 0);
    assert_eq!((metres, block), ([2.0, 0.0, -80.0, 60.0, 0.0, 0.5, 0.5], 0));
}

/// Reads the printed case, or a cut of it, into slices of these lengths.
fn read(file: &[u8], lengths: [usize; 4]) -> (u64, usize, [Vec<i64>; 4]) {
    let mut lent = lengths.map(|length| vec![FILL; length]);
    let mut block = NO_BLOCK;
    let [record, columns, rows, slots] = &mut lent;
    let number = raw::read(file, record, columns, rows, slots, &mut block);
    (number, block, lent)
}

#[test]
fn a_file_read_into_a_short_slice_is_7() {
    let file = Slices::printed().file();
    for lengths in short_lengths().chain([[0; 4]]) {
        assert_eq!(read(&file, lengths), (7, 0, lengths.map(|length| vec![FILL; length])));
    }
}

#[test]
fn a_short_record_comes_before_the_file_and_7_after_its_layers() {
    let file = Slices::printed().file();
    for end in 0..file.len() {
        assert_eq!(read(&file[..end], [RECORD - 1, 2, 1, 32]).0, 7);
        let number = if end < 3 { 1 } else { 7 };
        assert_eq!(read(&file[..end], [RECORD, 1, 1, 32]).0, number);
        assert_eq!(read(&file[..end], [RECORD, 2, 0, 32]).0, number);
        assert_eq!(read(&file[..end], [RECORD, 2, 1, 31]).0, number);
    }
}

#[test]
fn what_is_read_goes_over_the_front() {
    let case = Slices::printed();
    let long = lent([RECORD + 2, 64, 64, 8_192]);
    let (number, block, [record, columns, rows, slots]) = read(&case.file(), [RECORD + 2, 64, 64, 8_192]);
    assert_eq!((number, block), (0, 0));
    assert_eq!(Slices { record, columns, rows, slots }, long);
}
