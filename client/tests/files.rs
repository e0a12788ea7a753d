//! Case files: cut, with a byte changed, and with numbers out of form or range.

mod common;

use caydubeesh::{raw, Case, Refusal, RECORD};
use common::{refused, Wrapped};
use comparison::dice::Dice;
use comparison::slices::{file_of, place, Slices};
use comparison::{FILL, NO_BLOCK};

const PRINTED: &[u8] = include_bytes!("../../examples/printed.case");
const OAHU: &[u8] = include_bytes!("../../examples/oahu_b_steady.case");

/// Reads a file and holds it to what is promised of any file: a refusal is one of 1 to 10 and changes nothing; what was read passes the check, and is
/// what the file has, in its shortest form; room beyond it is not touched.
fn read(file: &[u8]) -> Result<Slices, Refusal> {
    let lengths = [RECORD + 2, 64, 64, 8_192];
    let mut lent = lengths.map(|length| vec![FILL; length]);
    let mut block = NO_BLOCK;
    let [record, columns, rows, slots] = &mut lent;
    let number = raw::read(file, record, columns, rows, slots, &mut block);
    if number != 0 {
        assert!((1..=10).contains(&number) && number != 7);
        assert!(if [6, 9, 10].contains(&number) { (1..=512).contains(&block) } else { block == 0 });
        assert_eq!(lent, lengths.map(|length| vec![FILL; length]));
        return Err(Refusal { number, block });
    }
    let [mut record, mut columns, mut rows, mut slots] = lent;
    let need = [RECORD, record[0] as usize, record[1] as usize, 16 * (record[0] * record[1] * record[2]) as usize];
    for (slice, need) in [&mut record, &mut columns, &mut rows, &mut slots].into_iter().zip(need) {
        assert!(slice[need..].iter().all(|&number| number == FILL));
        slice.truncate(need);
        assert!(!slice.contains(&FILL));
    }
    let case = Slices { record, columns, rows, slots };
    assert_eq!((block, case.check()), (0, Ok(())));
    assert_eq!(case.file(), file);
    Ok(case)
}

/// The same through the wrapper, which must say the same.
fn said(file: &[u8]) -> Result<(), Refusal> {
    let read = read(file).map(|_| ());
    assert_eq!(Case::read(file).map(|_| ()), read);
    read
}

#[test]
fn good_files_are_read() {
    assert_eq!(read(PRINTED), Ok(Slices::printed()));
    assert_eq!(said(OAHU), Ok(()));
}

#[test]
fn a_cut_file_is_1_at_every_length() {
    // Up to the cut each number is in form and in range, and lent slices are long enough, so that nothing comes before 1.
    for file in [PRINTED, OAHU] {
        for end in 0..file.len() {
            assert_eq!(said(&file[..end]), refused(1, 0), "{end}");
        }
    }
}

#[test]
fn bytes_after_the_last_block_are_8() {
    for byte in 0..=255 {
        assert_eq!(said(&[PRINTED, &[byte]].concat()), refused(8, 0));
    }
    assert_eq!(said(&[OAHU, PRINTED].concat()), refused(8, 0));
    assert_eq!(said(&[PRINTED, &vec![0; 1 << 20]].concat()), refused(8, 0));
}

/// How many of these files are read, and how many are refused.
fn counted(files: impl IntoIterator<Item = Vec<u8>>) -> [usize; 2] {
    files.into_iter().fold([0, 0], |[read, refused], file| match said(&file) {
        Ok(()) => [read + 1, refused],
        Err(_) => [read, refused + 1],
    })
}

/// A file with each of its bytes changed in these ways, one at a time.
fn changed<'a>(file: &'a [u8], changes: &'a [u8]) -> impl Iterator<Item = Vec<u8>> + 'a {
    (0..file.len()).flat_map(move |place| {
        changes.iter().map(move |change| {
            let mut file = file.to_vec();
            file[place] ^= change;
            file
        })
    })
}

#[test]
fn a_changed_byte_is_refused_or_read() {
    assert_eq!(counted(changed(PRINTED, &[1, 2, 4, 8, 16, 32, 64, 128, 255])), [318, 213]);
    assert_eq!(counted(changed(OAHU, &[1, 128])), [1_528, 2_668]);
}

#[test]
fn a_byte_too_few_anywhere_is_refused_or_read() {
    let shorter = (0..PRINTED.len()).map(|place| [&PRINTED[..place], &PRINTED[place + 1..]].concat());
    assert_eq!(counted(shorter), [17, 42]);
}

#[test]
fn a_byte_too_many_anywhere_is_refused_or_read() {
    // A byte below 128 ends a number, so that there is one too many; another one makes a number longer, which may be in range.
    for byte in [0, 1, 64, 127, 128, 129, 192, 255] {
        let longer = (0..=PRINTED.len()).map(|place| [&PRINTED[..place], &[byte], &PRINTED[place..]].concat());
        assert_eq!(counted(longer), if byte < 128 { [0, 60] } else { [14, 46] }, "{byte}");
    }
}

#[test]
fn random_bytes_are_refused() {
    let mut dice = Dice(1);
    let any = (0..1_000).map(|_| (0..dice.below(80)).map(|_| dice.roll() as u8).collect());
    assert_eq!(counted(any), [0, 1_000]);
    let small = (0..1_000).map(|_| (0..dice.below(80)).map(|_| dice.below(3) as u8).collect());
    assert_eq!(counted(small), [0, 1_000]);
}

#[test]
fn all_files_of_ten_bytes_below_2() {
    // Ten bytes are enough for one inactive block alone: counts 1, 1 and 1, δ 1, two choices of the flag, step 1, two of the tolerance, widths 1 and K 0.
    let files = (0..1_024usize).map(|choice| (0..10).map(|place| (choice >> place & 1) as u8).collect());
    assert_eq!(counted(files), [4, 1_020]);
}

#[test]
fn forms_of_numbers() {
    assert_eq!(file_of(&[300]), [0xAC, 0x02]);
    let one_byte_short: [&[u8]; 4] = [&[], &[0x80], &[0xFF, 0xFF, 0xFF, 0xFF], &[0x80, 0x80, 0x80, 0x80]];
    for file in one_byte_short {
        assert_eq!(said(file), refused(1, 0));
    }
    let too_long: [&[u8]; 5] = [&[0x80, 0x00], &[0x82, 0x00], &[0x80, 0x80, 0x80, 0x80, 0x00], &[0x80; 5], &[0xFF; 10]];
    for file in too_long {
        assert_eq!(said(file), refused(2, 0));
    }
    // The greatest number that has a form is a number, and out of range.
    assert_eq!(said(&[0xFF, 0xFF, 0xFF, 0xFF, 0x7F]), refused(3, 0));
    assert_eq!(said(&[1, 1, 1, 0xFF, 0xFF, 0xFF, 0xFF, 0x7F]), refused(4, 0));
}

#[test]
fn counts_and_their_total_are_3() {
    for counts in [&[0][..], &[65], &[1, 0], &[64, 65], &[1, 1, 0], &[1, 1, 9], &[27, 19, 1], &[64, 64, 8], &[64, 9, 1]] {
        let counts: Vec<u64> = counts.to_vec();
        assert_eq!(said(&file_of(&counts)), refused(3, 0), "{counts:?}");
    }
    assert_eq!(said(&file_of(&[64, 8, 1])), refused(1, 0));
}

#[test]
fn weights_are_read_number_by_number_and_judged_before_the_flag() {
    let after_counts = |numbers: &[u64]| said(&file_of(&[&[2, 1, 1], numbers].concat()));
    // A δ of 0 asks for two weights more, and a whole one for none.
    assert_eq!([&[0][..], &[0, 1_000], &[0, 1_000, 1_023]].map(after_counts), [(); 3].map(|()| refused(1, 0)));
    // Each weight is judged at its own number, and the pair right after them, before the flag: here it is missing or no flag.
    for numbers in [&[0, 989][..], &[0, 1_011], &[0, 1_000, 1_010], &[0, 1_000, 1_051], &[0, 1_007, 1_011], &[0, 1_010, 1_014]] {
        assert_eq!(after_counts(numbers), refused(4, 0), "{numbers:?}");
    }
    assert_eq!(after_counts(&[0, 1_010, 1_015]), refused(1, 0));
    let record = |salt: u64| file_of(&[2, 1, 1, 0, 1_010, salt]);
    assert_eq!(said(&[&record(1_014)[..], &[0x80, 0x00]].concat()), refused(4, 0));
    assert_eq!(said(&[&record(1_015)[..], &[0x80, 0x00]].concat()), refused(2, 0));
    // 2 for a weight that is too long comes before its range.
    assert_eq!(said(&[2, 1, 1, 0, 0x80, 0x00]), refused(2, 0));
    let lagoon = Slices::printed().with_density([0, 1_000, 1_023]);
    assert_eq!(read(&lagoon.file()), Ok(lagoon.clone()));
    assert_eq!(lagoon.file().len(), PRINTED.len() + 4);
}

#[test]
fn terms_are_4_and_widths_5() {
    use place::{DELTA, FLAG, STEP, TOLERANCE};
    for (place, beyond) in [(DELTA, 0), (DELTA, 101), (FLAG, 2), (STEP, 0), (STEP, 36_526), (TOLERANCE, 1_000_000_001)] {
        let case = Slices::printed().with_record(place, beyond);
        assert_eq!(said(&case.file()), refused(4, 0));
    }
    let printed = Slices::printed();
    for beyond in [0, 4_097] {
        for columns in [vec![beyond, 100], vec![100, beyond]] {
            assert_eq!(said(&Slices { columns, ..printed.clone() }.file()), refused(5, 0));
        }
        assert_eq!(said(&Slices { rows: vec![beyond], ..printed.clone() }.file()), refused(5, 0));
    }
}

#[test]
fn slots_are_6() {
    let river = Slices::printed().with(1, 9, 1).with(1, 11, 1).with(2, 9, 2).with(2, 11, 1);
    assert_eq!(said(&river.file()), Ok(()));
    let ends = [
        (0, 1_000_001),
        (1, -4_194_305),
        (1, 4_194_305),
        (2, 0),
        (2, 4_194_305),
        (3, 0),
        (3, 1_001),
        (4, 1),
        (5, 1_000_001),
        (6, -1_073_741_825),
        (6, 1_073_741_825),
        (7, -4_194_305),
        (7, 8_388_609),
        (8, -4_194_305),
        (8, 8_388_609),
        (9, 6),
        (10, -4_194_305),
        (10, 4_194_305),
        (11, 0),
        (11, 1_000_001),
        (12, -4_194_305),
        (13, 4_194_305),
        (14, -4_194_305),
        (15, 4_194_305),
    ];
    for (slot, beyond) in ends {
        assert_eq!(said(&river.with(1, slot, beyond).file()), refused(6, 1), "{slot} {beyond}");
        assert_eq!(said(&river.with(2, slot, beyond).file()), refused(6, 2), "{slot} {beyond}");
    }
}

#[test]
fn a_blocks_rules_wait_for_its_last_number() {
    // A river in a low layer: its two numbers are still read, and 1 comes before 6.
    let block = |base, kind, leakance| [1_000, base, 4_096, 200, 0, 0, 0, 0, 0, kind, 0, leakance, 0, 0, 0, 0];
    let mut case = Slices::empty(1, 1, 2);
    case.slots = [block(-4_096, 1, 5), block(0, 0, 0)].concat();
    let file = case.file();
    // The record has 7 bytes, the widths 2, the block 2 + 2 + 2 + 2 and 12 of one byte each.
    assert_eq!(said(&file[..29]), refused(6, 1));
    assert_eq!(said(&file[..28]), refused(1, 0));
    assert_eq!(said(&file), refused(6, 1));
}

#[test]
fn after_the_last_block_8_then_9_then_10() {
    let block = |base, leakance| [1_000, base, 4_096, 200, leakance, 0, 0, 0, 0, 0, 0, 0, 0, 0, 0, 0];
    let mut case = Slices::empty(2, 1, 2);
    case.columns.fill(4_096);
    case.rows.fill(4_096);
    case.slots = [block(-4_096, 16_001), block(-4_096, 0), block(0, 0), block(-1, 0)].concat();
    let file = case.file();
    assert_eq!(said(&[&file[..], &[0]].concat()), refused(8, 0));
    assert_eq!(said(&file), refused(9, 2));
    assert_eq!(said(&case.with(4, 1, 0).file()), refused(10, 1));
    assert_eq!(said(&case.with(4, 1, 0).with(1, 4, 16_000).file()), Ok(()));
}
