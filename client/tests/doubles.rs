//! Metres and ticks: doubles of every kind.

mod common;

use caydubeesh::{floor_tick, metres, raw, tick};
use common::refused;
use comparison::dice::Dice;
use comparison::FILL;

/// Half a tick in metres.
const HALF: f64 = 1.0 / 8_192.0;

/// The greatest tick of a level.
const MOST: i64 = 4_194_304;

/// What document 01 says of a double, worked out in another way: a double times 4,096 is exact, and the nearest whole number to it is the tick.
fn expected(level: f64, most: i64) -> Result<i64, caydubeesh::Refusal> {
    let nearest = (level * 4_096.0).round_ties_even();
    if nearest >= -MOST as f64 && nearest <= most as f64 {
        Ok(nearest as i64)
    } else {
        refused(12, 0)
    }
}

#[test]
fn halves_go_to_the_even_tick() {
    assert_eq!(tick(HALF), Ok(0));
    assert_eq!(tick(3.0 * HALF), Ok(2));
    assert_eq!(tick(5.0 * HALF), Ok(2));
    assert_eq!(tick(-HALF), Ok(0));
    assert_eq!(tick(-3.0 * HALF), Ok(-2));
    for halves in -20_001..=20_001 {
        let level = halves as f64 * HALF;
        assert_eq!(tick(level), expected(level, MOST));
        assert_eq!(floor_tick(level), expected(level, 0));
    }
}

#[test]
fn small_doubles_are_tick_0() {
    let small = [
        0.0,
        -0.0,
        f64::MIN_POSITIVE,
        -f64::MIN_POSITIVE,
        f64::from_bits(1),
        -f64::from_bits(1),
        f64::from_bits((1 << 52) - 1),
        1e-9,
        -1e-9,
    ];
    for level in small {
        assert_eq!((tick(level), floor_tick(level)), (Ok(0), Ok(0)));
    }
    assert_eq!(tick(HALF.next_up()), Ok(1));
    assert_eq!(tick(-HALF.next_up()), Ok(-1));
}

#[test]
fn ends_of_the_range() {
    let last = 1_024.0 + HALF;
    for (level, there) in
        [(1_024.0, MOST), (last, MOST), (last.next_down(), MOST), (1_024.0 - HALF, MOST), (1_024.0 - 3.0 * HALF, MOST - 2)]
    {
        assert_eq!((tick(level), tick(-level)), (Ok(there), Ok(-there)));
        assert_eq!((floor_tick(level), floor_tick(-level)), (refused(12, 0), Ok(-there)));
    }
    for beyond in [last.next_up(), 1_024.0 + 2.0 * HALF, 1_025.0, 2_047.9, 2_048.0, 4_096.0, 1e18, 1e300, f64::MAX, f64::INFINITY] {
        assert_eq!((tick(beyond), tick(-beyond)), (refused(12, 0), refused(12, 0)));
        assert_eq!((floor_tick(beyond), floor_tick(-beyond)), (refused(12, 0), refused(12, 0)));
    }
}

#[test]
fn a_sea_floor_is_not_above_0() {
    assert_eq!(floor_tick(HALF), Ok(0));
    assert_eq!(floor_tick(HALF.next_up()), refused(12, 0));
    assert_eq!(floor_tick(1.0), refused(12, 0));
    assert_eq!(floor_tick(-1.0), Ok(-4_096));
}

#[test]
fn what_is_no_number_is_12() {
    for bits in [0x7FF8 << 48, 0xFFF8 << 48, (0x7FF0 << 48) + 1, (0xFFF0 << 48) + 1, (0x7FF4 << 48) + 99, u64::MAX, i64::MAX as u64] {
        let none = f64::from_bits(bits);
        assert!(none.is_nan());
        assert_eq!((tick(none), floor_tick(none)), (refused(12, 0), refused(12, 0)));
    }
}

#[test]
fn any_bits() {
    let mut dice = Dice(2);
    for _ in 0..10_000 {
        let wild = f64::from_bits(dice.roll());
        let near = dice.from(-9_000_000, 9_000_000) as f64 * HALF / 8.0 * dice.from(1, 9) as f64;
        for level in [wild, near, near.next_up(), near.next_down()] {
            assert_eq!(tick(level), expected(level, MOST), "{level}");
            assert_eq!(floor_tick(level), expected(level, 0), "{level}");
        }
    }
}

#[test]
fn ticks_are_shown_exactly_and_come_back() {
    for there in -MOST..=MOST {
        let level = metres(there).unwrap();
        assert_eq!(level * 4_096.0, there as f64);
        assert_eq!(tick(level), Ok(there));
        assert_eq!(floor_tick(level), if there > 0 { refused(12, 0) } else { Ok(there) });
    }
}

#[test]
fn ends_of_what_is_shown() {
    let end = 1i64 << 53;
    assert_eq!(metres(end - 1), Ok(9_007_199_254_740_991.0 / 4_096.0));
    assert_eq!(metres(1 - end), Ok(-9_007_199_254_740_991.0 / 4_096.0));
    for beyond in [end, -end, end + 1, -end - 1, i64::MAX, i64::MIN, i64::MIN + 1] {
        assert_eq!(metres(beyond), refused(12, 0));
    }
    assert_eq!(metres(0).unwrap().to_bits(), 0);
    assert_eq!((metres(1), metres(-1)), (Ok(2.0 * HALF), Ok(-2.0 * HALF)));
}

#[test]
fn any_tick() {
    let mut dice = Dice(3);
    for _ in 0..10_000 {
        let any = dice.wild();
        let shown = metres(any);
        assert_eq!(shown.is_ok(), any.unsigned_abs() < 1 << 53, "{any}");
        assert!(shown.map_or(true, |level| (level * 4_096.0) as i64 == any));
    }
}

#[test]
fn a_refusal_leaves_what_was_lent() {
    let mut there = FILL;
    assert_eq!((raw::tick(f64::NAN, &mut there), there), (12, FILL));
    assert_eq!((raw::tick(2_000.0, &mut there), there), (12, FILL));
    assert_eq!((raw::floor_tick(1.0, &mut there), there), (12, FILL));
    assert_eq!((raw::floor_tick(f64::INFINITY, &mut there), there), (12, FILL));
    assert_eq!((raw::tick(1.0, &mut there), there), (0, 4_096));
    assert_eq!((raw::floor_tick(-1.0, &mut there), there), (0, -4_096));
    let mut level = 0.5;
    assert_eq!((raw::metres(i64::MIN, &mut level), level), (12, 0.5));
    assert_eq!((raw::metres(-4_096, &mut level), level), (0, -1.0));
}
