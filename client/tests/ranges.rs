//! Numbers out of range, in each place, and the rules that refuse a case in range.

mod common;

use caydubeesh::{RECORD, SLOTS};
use common::{refused, Wrapped};
use comparison::generator::ranges::{OF_RECORD, OF_SLOT};
use comparison::slices::{place, Slices};

/// What is given where a number of the record is out of range.
const REFUSALS: [u64; RECORD] = [3, 3, 3, 4, 4, 4, 4, 4, 4];

/// Numbers beyond two ends: the next ones, the extreme ones, and some between. Of the last one the low 32 bits alone would be in range.
fn beyond((low, high): (i64, i64)) -> [i64; 7] {
    [low - 1, high + 1, i64::MIN, i64::MAX, i64::MIN + 1, -1 << 40, (1 << 32) + 1]
}

/// Holds a case to one refusal by all functions that take a case.
fn all_refuse(case: &Slices, number: u64, block: usize) {
    let marks = vec![1; 512];
    assert_eq!(case.check(), refused(number, block), "{case:?}");
    assert_eq!(case.verdict(), refused(number, block));
    assert_eq!(case.table(&marks), refused(number, block));
    assert_eq!(case.report(1), refused(number, block));
    assert_eq!(case.report(usize::MAX), refused(number, block));
}

#[test]
fn each_number_of_the_record() {
    for (place, ends) in OF_RECORD.into_iter().enumerate() {
        for value in beyond(ends) {
            all_refuse(&Slices::printed().with_record(place, value), REFUSALS[place], 0);
        }
    }
    for place in [place::DELTA, place::FLAG, place::STEP, place::TOLERANCE] {
        let (low, high) = OF_RECORD[place];
        for value in [low, high] {
            assert_eq!(Slices::printed().with_record(place, value).check(), Ok(()));
        }
    }
}

/// The printed case with another δ and weights.
fn weighing(density: [i64; 3]) -> Slices {
    Slices::printed().with_density(density)
}

#[test]
fn each_pair_of_weights() {
    for fresh in 985..=1_015 {
        for salt in 1_005..=1_055 {
            let is_in_range = (990..=1_010).contains(&fresh) && (1_011..=1_050).contains(&salt) && salt - fresh >= 5;
            let expected = if is_in_range { Ok(()) } else { refused(4, 0) };
            assert_eq!(weighing([0, fresh, salt]).check(), expected, "{fresh} {salt}");
        }
    }
    for weights in [[0, 0], [1_000, 0], [0, 1_023], [1_023, 1_000], [i64::MIN, i64::MAX], [i64::MAX, i64::MIN], [-1_000, 1_023]] {
        all_refuse(&weighing([0, weights[0], weights[1]]), 4, 0);
    }
}

#[test]
fn a_weight_beside_a_whole_delta_is_4() {
    for delta in [1, 40, 100] {
        assert_eq!(weighing([delta, 0, 0]).check(), Ok(()));
        for weights in [[1_000, 1_023], [1_000, 0], [0, 1_023], [1, 0], [0, -1]] {
            all_refuse(&weighing([delta, weights[0], weights[1]]), 4, 0);
        }
    }
    // 7 comes before it, and 5 after it.
    let mut case = weighing([40, 1_000, 1_023]);
    case.columns[0] = 0;
    all_refuse(&case, 4, 0);
    case.rows.clear();
    all_refuse(&case, 7, 0);
}

#[test]
fn negative_counts_and_flag_are_no_counts() {
    for place in 0..3 {
        all_refuse(&Slices::printed().with_record(place, -1), 3, 0);
        all_refuse(&Slices::printed().with_record(place, -2), 3, 0);
    }
    all_refuse(&Slices::printed().with_record(place::FLAG, -1), 4, 0);
}

#[test]
fn counts_come_first_and_widths_after_terms() {
    let case = Slices::printed().with_record(place::COLUMNS, i64::MAX).with_record(place::DELTA, i64::MIN).with(1, 0, -1);
    all_refuse(&case, 3, 0);
    let mut case = Slices::printed().with_record(place::TOLERANCE, -1).with(1, 0, -1);
    case.columns[0] = 0;
    all_refuse(&case, 4, 0);
    all_refuse(&Slices { record: Slices::printed().record, ..case }, 5, 0);
}

#[test]
fn blocks_512_pass_and_513_do_not() {
    assert_eq!(Slices::empty(64, 8, 1).check(), Ok(()));
    assert_eq!(Slices::empty(8, 8, 8).check(), Ok(()));
    all_refuse(&Slices::empty(27, 19, 1), 3, 0);
    all_refuse(&Slices::empty(64, 64, 8), 3, 0);
}

#[test]
fn each_width() {
    for value in beyond((1, 4_096)) {
        for place in 0..2 {
            let mut case = Slices::printed();
            case.columns[place] = value;
            all_refuse(&case, 5, 0);
        }
        let mut case = Slices::printed();
        case.rows[0] = value;
        all_refuse(&case, 5, 0);
    }
    for value in [1, 4_096] {
        let mut case = Slices::printed();
        case.columns[0] = value;
        case.rows[0] = value;
        assert_eq!(case.check(), Ok(()));
    }
}

#[test]
fn each_slot() {
    for (slot, ends) in OF_SLOT.into_iter().enumerate() {
        for value in beyond(ends) {
            all_refuse(&Slices::printed().with(1, slot, value), 6, 1);
            all_refuse(&Slices::printed().with(2, slot, value), 6, 2);
        }
    }
}

#[test]
fn a_slot_at_its_end_passes() {
    let case = Slices::printed();
    for slot in [12, 13, 14, 15] {
        for value in [-4_194_304, 4_194_304] {
            assert_eq!(case.with(1, slot, value).check(), Ok(()));
        }
    }
    for (slot, value) in
        [(0, 1), (0, 1_000_000), (1, -4_194_304), (1, 4_194_304), (2, 1), (2, 4_194_304), (3, 1), (3, 1_000), (5, 1_000_000)]
    {
        assert_eq!(case.with(1, slot, value).check(), Ok(()), "{slot} {value}");
    }
    for value in [-1_073_741_824, 1_073_741_824] {
        assert_eq!(case.with(2, 6, value).check(), Ok(()));
    }
}

#[test]
fn the_first_block_at_fault_is_named() {
    let case = Slices::printed().with(2, 15, i64::MAX);
    all_refuse(&case, 6, 2);
    all_refuse(&case.with(1, 3, 0), 6, 1);
}

#[test]
fn an_inactive_block_is_all_zero() {
    all_refuse(&Slices::printed().with(1, 0, 0), 6, 1);
    for slot in 1..SLOTS {
        all_refuse(&Slices::empty(2, 1, 1).with(2, slot, 1), 6, 2);
    }
}

#[test]
fn screens() {
    // The well of block 2 is screened from -4,096 to 4,096, in an aquifer from -204,800 to 40,960.
    let case = Slices::printed();
    for (bottom, top) in [(-204_800, 40_960), (-204_800, -204_799), (40_959, 40_960)] {
        assert_eq!(case.with(2, 7, bottom).with(2, 8, top).check(), Ok(()));
    }
    for (bottom, top) in [(-204_801, 0), (0, 40_961), (0, 0), (1, 0)] {
        all_refuse(&case.with(2, 7, bottom).with(2, 8, top), 6, 2);
    }
    all_refuse(&case.with(2, 6, 0), 6, 2);
    all_refuse(&case.with(1, 7, 1), 6, 1);
}

#[test]
fn boundaries() {
    let river = Slices::printed().with(1, 9, 1).with(1, 10, 4_194_304).with(1, 11, 1);
    assert_eq!(river.check(), Ok(()));
    all_refuse(&river.with(1, 11, 0), 6, 1);
    all_refuse(&river.with(1, 9, 2), 6, 1);
    assert_eq!(river.with(1, 9, 2).with(1, 10, 0).check(), Ok(()));
    all_refuse(&river.with(1, 9, 2).with(1, 10, 1), 6, 1);
    for kind in [0, 3, 4, 5] {
        assert_eq!(Slices::printed().with(1, 9, kind).check(), Ok(()));
        all_refuse(&Slices::printed().with(1, 9, kind).with(1, 10, 1), 6, 1);
        all_refuse(&Slices::printed().with(1, 9, kind).with(1, 11, 1), 6, 1);
    }
}

/// Two layers of two blocks, all active, the lower ones up to tick 0 and the upper ones from there.
fn two_layers() -> Slices {
    let block = |base| [1_000, base, 4_096, 200, 0, 0, 0, 0, 0, 0, 0, 0, 0, 0, 0, 0];
    let mut case = Slices::empty(2, 1, 2);
    case.slots = [block(-4_096), block(-4_096), block(0), block(0)].concat();
    case
}

#[test]
fn layers() {
    let case = two_layers();
    assert_eq!(case.check(), Ok(()));
    assert_eq!(case.with(1, 4, 1_000_000).check(), Ok(()));
    all_refuse(&case.with(3, 4, 1), 6, 3);
    assert_eq!(case.with(4, 5, 1).check(), Ok(()));
    all_refuse(&case.with(2, 5, 1), 6, 2);
    for kind in [1, 2] {
        assert_eq!(case.with(4, 9, kind).with(4, 11, 1).check(), Ok(()));
        all_refuse(&case.with(2, 9, kind).with(2, 11, 1), 6, 2);
    }
}

#[test]
fn overlapping_layers_are_9() {
    let case = two_layers();
    all_refuse(&case.with(2, 2, 4_097), 9, 2);
    all_refuse(&case.with(4, 1, -1), 9, 2);
    all_refuse(&case.with(4, 1, -1).with(1, 2, 4_194_304), 9, 1);
    let mut case = case.with(2, 2, 4_194_304);
    case.slots[3 * SLOTS..].fill(0);
    assert_eq!(case.check(), Ok(()));
}

#[test]
fn a_lateral_conductance_beyond_the_limit_is_10() {
    // δ is 1, so that the salt K is twice K. Widths 1 along and 4 across: C = 2 · 65,536 · 4,194,304 · 4 / (2 · 4,096) = 268,435,456.
    let mut case = Slices::empty(2, 1, 1);
    case.columns.fill(1);
    case.rows.fill(4);
    case.record[place::DELTA] = 1;
    let block = [32_768, -4_194_304, 4_194_304, 200, 0, 0, 0, 0, 0, 0, 0, 0, 0, 0, 0, 0];
    case.slots = [block, block].concat();
    assert_eq!(case.check(), Ok(()));
    all_refuse(&case.with(1, 0, 32_769).with(2, 0, 32_769), 10, 1);
    // The greater thickness of the two counts.
    assert_eq!(case.with(1, 2, 1).check(), Ok(()));
    all_refuse(&case.with(1, 2, 1).with(1, 0, 32_769).with(2, 0, 32_769), 10, 1);
    // 6 comes before 10.
    all_refuse(&case.with(1, 0, 32_769).with(2, 0, 32_769).with(2, 3, 0), 6, 2);
}

#[test]
fn other_conductances_beyond_the_limit_are_10() {
    // Area 16,777,216 m²: 16,000 · 16,777,216 / 1,000 = 268,435,456.
    let mut case = two_layers();
    case.columns.fill(4_096);
    case.rows.fill(4_096);
    assert_eq!(case.with(2, 4, 16_000).check(), Ok(()));
    all_refuse(&case.with(2, 4, 16_001), 10, 2);
    let river = case.with(4, 9, 1).with(4, 11, 16_000);
    assert_eq!(river.check(), Ok(()));
    all_refuse(&river.with(4, 11, 16_001), 10, 4);
    all_refuse(&river.with(4, 11, 16_001).with(2, 4, 16_001), 10, 2);
    // 9 comes before 10.
    all_refuse(&river.with(4, 11, 16_001).with(1, 2, 4_097), 9, 1);
}

#[test]
fn marks_other_than_0_and_1_are_11() {
    let case = two_layers();
    for value in [2, -1, i64::MIN, i64::MAX, 1 << 32, (1 << 32) + 1] {
        for place in 0..4 {
            let mut marks = vec![0, 1, 1, 0, 1];
            marks[place] = value;
            assert_eq!(case.table(&marks), refused(11, 0));
        }
        assert!(case.table(&[0, 1, 1, 0, value]).is_ok());
        assert_eq!(Slices::empty(1, 1, 1).table(&[value]), refused(11, 0));
    }
    assert_eq!(case.with(1, 0, -1).table(&[2; 4]), refused(6, 1));
}

#[test]
fn reports_of_no_active_block_are_14() {
    let mut case = two_layers();
    case.slots[..SLOTS].fill(0);
    for number in [0, 1, 5, 512, 1 << 32, (1 << 32) + 2, usize::MAX / 16 + 3, usize::MAX] {
        assert_eq!(case.report(number), refused(14, number));
    }
    for number in 2..=4 {
        assert!(case.report(number).is_ok());
    }
}

#[test]
fn heads_at_their_ends_are_reported_exactly() {
    // ζ = 101 · 4,194,304 + 100 · 4,194,304 ticks, which is 205,824 m.
    let case = Slices::printed().with_record(place::DELTA, 100).with(1, 14, -4_194_304).with(1, 15, 4_194_304);
    assert_eq!(case.report(1), Ok([-1_024.0, 1_024.0, 205_824.0, 0.0, 60.0]));
    let case = Slices::printed().with_record(place::DELTA, 100).with(1, 14, 4_194_304).with(1, 15, -4_194_304);
    assert_eq!(case.report(1), Ok([1_024.0, -1_024.0, -205_824.0, 60.0, 0.0]));
    // With weights 5 apart ζ = (1,015 + 1,010) · 4,194,304 / 5 ticks, which is 414,720 m.
    let case = weighing([0, 1_010, 1_015]).with(1, 14, -4_194_304).with(1, 15, 4_194_304);
    assert_eq!(case.report(1), Ok([-1_024.0, 1_024.0, 414_720.0, 0.0, 60.0]));
    let case = weighing([0, 1_010, 1_015]).with(1, 14, 4_194_304).with(1, 15, -4_194_304);
    assert_eq!(case.report(1), Ok([1_024.0, -1_024.0, -414_720.0, 60.0, 0.0]));
}
