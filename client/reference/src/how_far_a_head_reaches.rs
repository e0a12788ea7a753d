//! Document 02, "W-207. How far a head reaches."

use crate::refusal_numbers::judge_counts;
use crate::{Record, Refusal};

/// Which balances may change with the old and new heads of one block, counted from 1: by block, "that block, the blocks one or two away in
/// its row or its column within its layer, and the ones directly above and below". A number that is no block's has none. Refused with 3
/// where the counts are out of range.
pub fn reach(record: &Record, block: usize) -> Result<Vec<bool>, Refusal> {
    let counts = judge_counts(record)?;
    let place = |index: usize| [index % counts.columns, index / counts.columns % counts.rows, index / counts.layer()];
    let reached = |index: usize| {
        let (from, to) = (place(block - 1), place(index));
        let [columns, rows, layers] = [0, 1, 2].map(|axis| from[axis].abs_diff(to[axis]));
        matches!([columns, rows, layers], [0..=2, 0, 0] | [0, 0..=2, 0] | [0, 0, 0..=1])
    };
    let is_block = (1..=counts.blocks()).contains(&block);
    Ok((0..counts.blocks()).map(|index| is_block && reached(index)).collect())
}

#[cfg(test)]
mod tests {
    use super::*;

    fn reached(columns: i64, rows: i64, layers: i64, block: usize) -> Vec<usize> {
        let record = Record { columns, rows, layers, delta: 40, fresh_weight: 0, salt_weight: 0, flag: 0, step: 30, tolerance: 5 };
        let reach = reach(&record, block).unwrap();
        (1..=reach.len()).filter(|&number| reach[number - 1]).collect()
    }

    #[test]
    fn eleven_blocks_at_most() {
        assert_eq!(reached(5, 5, 3, 38), [13, 28, 33, 36, 37, 38, 39, 40, 43, 48, 63]);
        assert_eq!(reached(8, 6, 8, 124), [76, 108, 116, 122, 123, 124, 125, 126, 132, 140, 172]);
    }

    #[test]
    fn fewer_at_an_edge() {
        assert_eq!(reached(1, 1, 1, 1), [1]);
        assert_eq!(reached(7, 1, 1, 1), [1, 2, 3]);
        assert_eq!(reached(1, 7, 1, 6), [4, 5, 6, 7]);
        assert_eq!(reached(1, 1, 8, 8), [7, 8]);
        assert_eq!(reached(3, 3, 2, 1), [1, 2, 3, 4, 7, 10]);
        for no_block in [0, 19, usize::MAX] {
            assert!(reached(3, 3, 2, no_block).is_empty());
        }
    }
}
