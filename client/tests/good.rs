//! Well-formed input: the numbers that document 01 prints, and those beside the examples.

mod common;

use caydubeesh::{Case, Lines, Record, Refusal, Report, Table, Verdict, RECORD, SLOTS};
use common::{refused, Wrapped};
use comparison::slices::{place, Slices};

const PRINTED: &[u8] = include_bytes!("../../examples/printed.case");

#[test]
fn printed_case_is_read() {
    let printed = Slices::printed();
    let case = Case::read(PRINTED).unwrap();
    assert_eq!(
        case.record,
        Record { columns: 2, rows: 1, layers: 1, delta: 40, fresh_weight: 0, salt_weight: 0, flag: 0, step: 30, tolerance: 5 }
    );
    assert_eq!((case.columns, case.rows, case.slots), (printed.columns.clone(), printed.rows.clone(), printed.slots.clone()));
    assert_eq!(printed.file(), PRINTED);
}

#[test]
fn printed_case_passes() {
    assert_eq!(Slices::printed().check(), Ok(()));
}

#[test]
fn printed_verdict() {
    let case = Case::read(PRINTED).unwrap();
    let told = caydubeesh::verdict(&case.record, &case.columns, &case.rows, &case.slots);
    assert_eq!(told, Ok(Verdict { code: 0, block: 0, count: 0, largest: 4 }));
}

#[test]
fn printed_table_of_the_whole() {
    let case = Case::read(PRINTED).unwrap();
    let none = Lines { storage: 0, edge_in: 0, edge_out: 0, converted: 0, wells: 0, recharge: 0, boundary: 0, supply: 0, error: 0 };
    let fresh = Lines { wells: -150, supply: 146, error: -4, ..none };
    let table = caydubeesh::zone_table(&case.record, &case.columns, &case.rows, &case.slots, &[1, 1]);
    assert_eq!(table, Ok(Table { fresh, salt: none }));
    assert_eq!(fresh.to_string(), "0 0 0 0 -150 0 0 146 -4");
}

#[test]
fn printed_tables_of_the_blocks() {
    // C is 600,000 and the heads differ by one tick: 600,000 / 4,096 = 146.48, so 146 litres a day go from block 1 to block 2.
    let case = Slices::printed();
    assert_eq!(case.table(&[1, 0]), Ok([[0, 0, 146, 0, 0, 0, 0, 146, 0], [0; 9]]));
    assert_eq!(case.table(&[0, 1]), Ok([[0, 146, 0, 0, -150, 0, 0, 0, -4], [0; 9]]));
    assert_eq!(case.table(&[0, 0]), Ok([[0; 9]; 2]));
}

#[test]
fn printed_reports() {
    let case = Case::read(PRINTED).unwrap();
    let told = caydubeesh::report(&case.record, &case.columns, &case.rows, &case.slots, 1);
    assert_eq!(told, Ok(Report { fresh_head: 2.0, salt_head: 0.0, interface: -80.0, fresh_thickness: 60.0, salt_thickness: 0.0 }));
    assert_eq!(Slices::printed().report(2), Ok([8_191.0 / 4_096.0, 0.0, -327_640.0 / 4_096.0, 60.0, 0.0]));
}

#[test]
fn rows_a_to_c_as_reports() {
    let case = Slices::printed();
    assert_eq!(case.with(1, 14, 4_096).report(1), Ok([1.0, 0.0, -40.0, 50.0, 10.0]));
    assert_eq!(case.with(1, 14, 4_096).with_record(place::FLAG, 1).report(1), Ok([1.0, 0.0, -40.0, 41.0, 10.0]));
    assert_eq!(case.with(1, 14, 8_192).report(1), Ok([2.0, 0.0, -80.0, 60.0, 0.0]));
}

#[test]
fn tolerance_one_litre_less_is_code_23() {
    assert_eq!(Slices::printed().with_record(place::TOLERANCE, 4).verdict(), Ok([0, 0, 0, 4]));
    assert_eq!(Slices::printed().with_record(place::TOLERANCE, 3).verdict(), Ok([23, 2, 1, 4]));
}

#[test]
fn salt_balance_is_code_24() {
    // Salt thicknesses 40,960 and 40,919, salt K 10,250: C is 102,447, and 102,447 / 4,096 = 25.01, so 25 litres a day of salt water come to block 2.
    let fresh_head = |case: Slices, block| case.with(block, 12, 4_096).with(block, 14, 4_096);
    let case = fresh_head(fresh_head(Slices::printed(), 1), 2).with(2, 9, 3).with(2, 13, -1).with(2, 15, -1);
    assert_eq!(case.verdict(), Ok([24, 2, 1, 25]));
    assert_eq!(case.table(&[0, 1]), Ok([[0, 0, 0, 0, -150, 0, 0, 150, 0], [0, 25, 0, 0, 0, 0, 0, 0, 25]]));
}

#[test]
fn half_a_litre_goes_away_from_zero() {
    // C is 600,000, and 32 ticks carry 4,687.5 litres a day, forth and back; 31 carry 4,541.02 and 33 carry 4,833.98.
    let apart = |ticks: i64| Slices::printed().with(2, 12, 8_192 - ticks).with(2, 14, 8_192 - ticks).table(&[1, 0]);
    let out = |litres: i64| Ok([[0, 0, litres, 0, 0, 0, 0, litres, 0], [0; 9]]);
    let back = |litres: i64| Ok([[0, litres, 0, 0, 0, 0, 0, -litres, 0], [0; 9]]);
    assert_eq!([31, 32, 33].map(apart), [4_541, 4_688, 4_834].map(out));
    assert_eq!([-31, -32, -33].map(apart), [4_541, 4_688, 4_834].map(back));
}

#[test]
fn moved_head_is_code_21_and_has_a_table() {
    let case = Slices::printed().with(1, 14, 8_193);
    assert_eq!(case.verdict(), Ok([21, 1, 1, 0]));
    assert_eq!(case.with(1, 15, 1).verdict(), Ok([21, 1, 2, 0]));
    assert!(case.table(&[1, 1]).is_ok());
}

#[test]
fn dry_well_is_code_22_and_refusal_13() {
    // Water table: the fresh head 8,191 lies below the screen.
    let case = Slices::printed().with_record(place::FLAG, 1).with(2, 7, 9_000).with(2, 8, 10_000);
    assert_eq!(case.verdict(), Ok([22, 2, 1, 0]));
    assert_eq!(case.table(&[1, 1]), refused(13, 2));
    assert_eq!(case.table(&[1, 0]), refused(13, 2));
    assert_eq!(case.table(&[0, 2]), refused(11, 0));
    assert!(case.report(2).is_ok());
    assert_eq!(case.with(1, 14, 8_193).verdict(), Ok([21, 1, 1, 0]));
}

/// The lines that the program prints for a file of one layer.
fn lines_of(file: &[u8]) -> String {
    let case = Case::read(file).unwrap();
    let told = caydubeesh::verdict(&case.record, &case.columns, &case.rows, &case.slots).unwrap();
    let whole = vec![1; case.slots.len() / SLOTS];
    let table = caydubeesh::zone_table(&case.record, &case.columns, &case.rows, &case.slots, &whole).unwrap();
    let Verdict { code, block, count, largest } = told;
    let Table { fresh, salt } = table;
    format!("verdict {code} {block} {count} {largest}\nlayer 1 fresh {fresh}\nlayer 1 salt {salt}\nall fresh {fresh}\nall salt {salt}\n")
}

#[test]
fn examples_answer_what_stands_beside_them() {
    let examples: [(&[u8], &str); 5] = [
        (PRINTED, include_str!("../../examples/printed.out")),
        (include_bytes!("../../examples/lagoon.case"), include_str!("../../examples/lagoon.out")),
        (include_bytes!("../../examples/oahu_a_printed.case"), include_str!("../../examples/oahu_a_printed.out")),
        (include_bytes!("../../examples/oahu_b_steady.case"), include_str!("../../examples/oahu_b_steady.out")),
        (include_bytes!("../../examples/oahu_c_pumped.case"), include_str!("../../examples/oahu_c_pumped.out")),
    ];
    for (file, printed) in examples {
        assert_eq!(lines_of(file), printed);
    }
}

#[test]
fn the_longest_file_is_read() {
    // 512 blocks and two weights, every number as long as a well-formed case has it: 17 bytes, 72 widths of 2 and 512 blocks of 54.
    let mut case = Slices::empty(64, 8, 1);
    case.columns.fill(128);
    case.rows.fill(128);
    case.record[place::DELTA..].copy_from_slice(&[0, 1_010, 1_015, 1, 36_525, 1_000_000_000]);
    for block in case.slots.chunks_mut(SLOTS) {
        let low = -4_194_304;
        block.copy_from_slice(&[
            16_384,
            low,
            4_194_304,
            1_000,
            0,
            1_000_000,
            -1_073_741_824,
            low,
            -1_048_577,
            2,
            low,
            1_000_000,
            low,
            low,
            low,
            low,
        ]);
    }
    let file = case.file();
    assert_eq!((case.check(), file.len()), (Ok(()), 27_809));
    let read = Case::read(&file).unwrap();
    assert_eq!(read.record, case.record());
    assert_eq!((read.columns, read.rows, read.slots), (case.columns, case.rows, case.slots));
}

#[test]
fn no_active_block_is_accepted() {
    let case = Slices::empty(64, 8, 1);
    assert_eq!(case.verdict(), Ok([0, 0, 0, 0]));
    assert_eq!(case.table(&[1; 512]), Ok([[0; 9]; 2]));
    assert_eq!(case.report(1), refused(14, 1));
}

#[test]
fn refusals_say_document_01s_words() {
    assert_eq!(Refusal { number: 1, block: 0 }.to_string(), "refused 1 0: the file ends where a byte is still needed");
    assert_eq!(Refusal { number: 6, block: 3 }.to_string(), "refused 6 3: a slot is out of range");
    let said = Box::<dyn std::error::Error>::from(Refusal { number: 14, block: usize::MAX }).to_string();
    assert_eq!(said, "refused 14 18446744073709551615: a report names no active block");
}

#[test]
fn header_has_the_wrappers_numbers() {
    let header = include_str!("../include/caydubeesh.h");
    for (name, value) in [
        ("RECORD", RECORD),
        ("WIDTHS", caydubeesh::WIDTHS),
        ("MOST_BLOCKS", caydubeesh::BLOCKS),
        ("SLOTS", SLOTS),
        ("MOST_SLOTS", SLOTS * caydubeesh::BLOCKS),
    ] {
        assert!(header.contains(&format!("#define CAYDUBEESH_{name} {value}\n")), "{name} {value}");
    }
}

#[test]
fn a_small_stack_is_enough_and_threads_do_not_meet() {
    // `caydubeesh_read` uses the most: docs/CLIENT.md says how much.
    let run = || {
        let (mut record, mut columns, mut rows, mut slots, mut block) = ([0; RECORD], [0; 64], [0; 64], vec![0; 8_192], 0);
        for _ in 0..200 {
            let number = caydubeesh::raw::read(PRINTED, &mut record, &mut columns, &mut rows, &mut slots, &mut block);
            assert_eq!((number, block), (0, 0));
            assert_eq!(Slices::printed().verdict(), Ok([0, 0, 0, 4]));
            assert_eq!(Slices::printed().table(&[1, 1]), Ok([[0, 0, 0, 0, -150, 0, 0, 146, -4], [0; 9]]));
        }
    };
    let start = || std::thread::Builder::new().stack_size(128 * 1_024).spawn(run).unwrap();
    let threads = [start(), start(), start(), start()];
    for thread in threads {
        assert!(thread.join().is_ok());
    }
}
