//! Document 01, "Numbers worked by hand": what the program prints; the numbers themselves are the tests below.

use crate::balance_verdict_table::{verdict_and_budget, Table, LINES};
use crate::case_file::read;
use crate::refusal_numbers::{judge, judge_counts, BYTES_FOLLOW};
use crate::units_and_ranges::{Counts, Grid, COUNT_ENDS, FRESH, GREATEST_BLOCKS, SALT, SLOTS};
use crate::{Case, Refusal, Verdict};

/// "in the program, before all else, a file above 28,672 bytes".
const GREATEST_FILE: usize = 28_672;

/// "Verdict fields stand as listed above".
fn verdict_line(verdict: &Verdict) -> String {
    format!("verdict {} {} {} {}\n", verdict.code, verdict.block, verdict.count, verdict.largest)
}

/// A row of a table after its name: "table lines in their order".
fn table_line(zone: &str, fluid: &str, lines: &[i64; LINES]) -> String {
    let numbers: String = lines.iter().map(|litres| format!(" {litres}")).collect();
    format!("{zone} {fluid}{numbers}\n")
}

/// The two rows of a zone, fresh and salt.
fn table_lines(zone: &str, table: &Table) -> String {
    table_line(zone, "fresh", &table[FRESH]) + &table_line(zone, "salt", &table[SALT])
}

/// The marks of each layer, "layers from 1", and at last those of all blocks.
fn zones(counts: Counts) -> Vec<Vec<i64>> {
    let mut zones = Vec::new();
    for layer in 0..counts.layers {
        let mut marks = vec![0; counts.blocks()];
        marks[layer * counts.layer()..(layer + 1) * counts.layer()].fill(1);
        zones.push(marks);
    }
    zones.push(vec![1; counts.blocks()]);
    zones
}

/// "With verdict 21 or 22 only the first line is printed".
fn session(input: &[u8]) -> Result<String, Refusal> {
    judge(input.len() <= GREATEST_FILE, BYTES_FOLLOW, 0)?;
    let greatest_count = COUNT_ENDS.1 as usize;
    let (mut columns, mut rows) = (vec![0; greatest_count], vec![0; greatest_count]);
    let mut slots = vec![0; SLOTS * GREATEST_BLOCKS];
    let record = read(input, &mut columns, &mut rows, &mut slots)?;
    let counts = judge_counts(&record)?;
    let grid = Grid::of(&Case { record, columns: &columns, rows: &rows, slots: &slots }, counts);
    let zones = zones(counts);
    let (verdict, budget) = verdict_and_budget(&grid, &zones.iter().map(Vec::as_slice).collect::<Vec<_>>());
    let mut text = verdict_line(&verdict);
    let tables = budget.map_or(Vec::new(), |budget| budget.tables);
    for (layer, table) in tables.iter().enumerate() {
        let zone = if layer < counts.layers { format!("layer {}", layer + 1) } else { "all".to_string() };
        text += &table_lines(&zone, table);
    }
    Ok(text)
}

/// What the program prints for its standard input. "a refusal prints `refused`, number, block."
pub fn printed(input: &[u8]) -> String {
    match session(input) {
        Ok(text) => text,
        Err(Refusal { number, block }) => format!("refused {number} {block}\n"),
    }
}

#[cfg(test)]
mod tests {
    use super::*;
    use crate::case_file::{signed, Reader};
    use crate::lateral_face::{conductance, face_k, flow, tip_thickness};
    use crate::leakage_river_and_sea::{fresh_equivalent, shares};
    use crate::one_block::{interface, levels, storage_rate, volume, Levels};
    use crate::units_and_ranges::Block;
    use crate::{check, floor_tick, metres, report, tick, verdict, zone_table, Record};
    use std::hint::black_box;

    const RECORD: Record =
        Record { columns: 1, rows: 1, layers: 1, delta: 40, fresh_weight: 0, salt_weight: 0, flag: 0, step: 30, tolerance: 5 };

    /// "Base -204,800, thickness 245,760, δ 40, salt head 0 for a to c."
    fn rows_a_to_c(fresh_head: i64) -> [i64; SLOTS] {
        [1, -204_800, 245_760, 200, 0, 0, 0, 0, 0, 0, 0, 0, fresh_head, 0, fresh_head, 0]
    }

    fn levels_of(slots: &[i64; SLOTS], water_table: bool) -> Levels {
        let block = Block::of(slots);
        levels(&RECORD, &block, water_table, block.new_heads)
    }

    #[test]
    fn row_a() {
        assert_eq!(interface(&RECORD, [4_096, 0]), -163_840);
        assert_eq!(levels_of(&rows_a_to_c(4_096), false).thickness, [204_800, 40_960]);
    }

    #[test]
    fn row_b() {
        assert_eq!(levels_of(&rows_a_to_c(4_096), true).thickness, [167_936, 40_960]);
    }

    #[test]
    fn row_c() {
        assert_eq!(levels_of(&rows_a_to_c(8_192), false).thickness, [245_760, 0]);
    }

    #[test]
    fn rows_a_to_c_as_reports() {
        let report_of = |fresh_head: i64, flag: i64| {
            let slots = rows_a_to_c(fresh_head);
            report(&Case { record: Record { flag, ..RECORD }, columns: &[100], rows: &[100], slots: &slots }, 1)
        };
        assert_eq!(report_of(4_096, 0), Ok([1.0, 0.0, -40.0, 50.0, 10.0]));
        assert_eq!(report_of(4_096, 1), Ok([1.0, 0.0, -40.0, 41.0, 10.0]));
        assert_eq!(report_of(8_192, 0), Ok([2.0, 0.0, -80.0, 60.0, 0.0]));
    }

    #[test]
    fn rows_d_and_e() {
        assert_eq!(face_k([100, 100], [10_000, 30_000]), 15_000);
        assert_eq!(face_k([100, 300], [10_000, 30_000]), 20_000);
    }

    #[test]
    fn row_f() {
        assert_eq!(conductance(15_000, 40_960, 100, [100, 100]), 150_000);
    }

    /// W-206: "In document 01's row g the answers become 37 and -37".
    #[test]
    fn row_g_with_w_206() {
        assert_eq!(flow(150_000, 1), 37);
        assert_eq!(flow(150_000, -1), -37);
    }

    /// W-206: "rounded to the nearest litre, halves away from zero, so opposite differences still give opposite flows."
    #[test]
    fn halves_of_a_litre() {
        let litres = |parts: i64| [1, -1].map(|difference| flow(parts, difference));
        assert_eq!(litres(0), [0, 0]);
        assert_eq!(litres(2_047), [0, 0]);
        assert_eq!(litres(2_048), [1, -1]);
        assert_eq!(litres(6_143), [1, -1]);
        assert_eq!(litres(6_144), [2, -2]);
        assert_eq!(litres(8_192), [2, -2]);
    }

    #[test]
    fn row_h() {
        assert_eq!(tip_thickness(4_096, 100, Some((8_192, 100))), 2_048);
        assert_eq!(tip_thickness(4_096, 100, Some((12_288, 100))), 0);
    }

    #[test]
    fn row_i() {
        assert_eq!(volume(200, 10_000, 4_096), 2_000_000);
        assert_eq!(storage_rate(2_000_000, 0, 30), 66_666);
    }

    #[test]
    fn row_j() {
        assert_eq!(shares(1_000_001, [3, 1]), [750_000, 250_001]);
    }

    #[test]
    fn row_k() {
        assert_eq!(fresh_equivalent(&RECORD, 0, -163_840), 4_096);
    }

    #[test]
    fn row_l() {
        assert_eq!(tick(0.5f64.powi(13)), Ok(0));
        assert_eq!(tick(3.0 * 0.5f64.powi(13)), Ok(2));
        assert_eq!(floor_tick(0.5f64.powi(13)), Ok(0));
    }

    #[test]
    fn numbers_of_the_file() {
        assert_eq!(Reader::new(&[0xac, 0x02]).number(), Ok(300));
        assert_eq!(Reader::new(&[0x80, 0x00]).number(), Err(Refusal { number: 2, block: 0 }));
        assert_eq!(Reader::new(&[0x80, 0x80, 0x80, 0x80, 0x80]).number(), Err(Refusal { number: 2, block: 0 }));
        assert_eq!(Reader::new(&[0x80, 0x80, 0x80, 0x80]).number(), Err(Refusal { number: 1, block: 0 }));
        assert_eq!(Reader::new(&[0xff, 0xff, 0xff, 0xff, 0x7f]).number(), Ok((1 << 35) - 1));
        assert_eq!(signed(1), -1);
        assert_eq!([0, 2, 3].map(signed), [0, 1, -2]);
    }

    #[test]
    fn blocks_512_and_513() {
        let slots = vec![0; SLOTS * 513];
        let judged = |columns: i64, rows: i64| {
            let record = Record { columns, rows, ..RECORD };
            check(&Case { record, columns: &[100; 64], rows: &[100; 64], slots: &slots })
        };
        assert_eq!(judged(64, 8), Ok(()));
        assert_eq!(judged(27, 19), Err(Refusal { number: 3, block: 0 }));
        let file = |columns: u8, rows: u8| {
            let mut file = vec![columns, rows, 1, 40, 0, 30, 5];
            file.resize(7 + usize::from(columns) + usize::from(rows), 100);
            file.resize(file.len() + usize::from(columns) * usize::from(rows), 0);
            file
        };
        assert!(printed(&file(64, 8)).starts_with("verdict 0 0 0 0\n"));
        assert_eq!(printed(&file(27, 19)), "refused 3 0\n");
    }

    /// "This case file holds 2 1 1 40 0 30 5, 100 100, 100, then 10000 -204800 .., then 10000 -204800 .."
    const PRINTED_RECORD: Record = Record { columns: 2, rows: 1, ..RECORD };
    #[rustfmt::skip]
    const PRINTED_SLOTS: [i64; 32] = [
        10_000, -204_800, 245_760, 200, 0, 0, 0, 0, 0, 5, 0, 0, 8_192, 0, 8_192, 0,
        10_000, -204_800, 245_760, 200, 0, 0, 150, -4_096, 4_096, 0, 0, 0, 8_191, 0, 8_191, 0,
    ];
    #[rustfmt::skip]
    const PRINTED_FILE: [u8; 59] = [
        0x02, 0x01, 0x01, 0x28, 0x00, 0x1e, 0x05, 0x64, 0x64, 0x64,
        0x90, 0x4e, 0xff, 0xff, 0x18, 0x80, 0x80, 0x0f, 0xc8, 0x01, 0x00, 0x00, 0x00, 0x00, 0x00, 0x05,
        0x80, 0x80, 0x01, 0x00, 0x80, 0x80, 0x01, 0x00,
        0x90, 0x4e, 0xff, 0xff, 0x18, 0x80, 0x80, 0x0f, 0xc8, 0x01, 0x00, 0x00, 0xac, 0x02, 0xff, 0x3f, 0x80, 0x40, 0x00,
        0xfe, 0x7f, 0x00, 0xfe, 0x7f, 0x00,
    ];
    const PRINTED: &str = "\
verdict 0 0 0 4
layer 1 fresh 0 0 0 0 -150 0 0 146 -4
layer 1 salt 0 0 0 0 0 0 0 0 0
all fresh 0 0 0 0 -150 0 0 146 -4
all salt 0 0 0 0 0 0 0 0 0
";

    #[test]
    fn the_case_file_is_read() {
        let (mut columns, mut rows, mut slots) = ([7; 3], [7; 2], [7; 33]);
        assert_eq!(read(&PRINTED_FILE, &mut columns, &mut rows, &mut slots), Ok(PRINTED_RECORD));
        assert_eq!((columns, rows), ([100, 100, 7], [100, 7]));
        assert_eq!((&slots[..32], slots[32]), (&PRINTED_SLOTS[..], 7));
    }

    #[test]
    fn the_session_is_printed() {
        assert_eq!(printed(&PRINTED_FILE), PRINTED);
        assert_eq!(printed(&[]), "refused 1 0\n");
        assert_eq!(printed(&[PRINTED_FILE.as_slice(), &[0; 28_672 - 59]].concat()), "refused 8 0\n");
        assert_eq!(printed(&[0x80; 28_672]), "refused 2 0\n");
        assert_eq!(printed(&[0x80; 28_673]), "refused 8 0\n");
    }

    #[test]
    fn the_same_from_slices() {
        let case = Case { record: PRINTED_RECORD, columns: &[100, 100], rows: &[100], slots: &PRINTED_SLOTS };
        assert_eq!(verdict(&case), Ok(Verdict { code: 0, block: 0, count: 0, largest: 4 }));
        assert_eq!(zone_table(&case, &[1, 1]), Ok([[0, 0, 0, 0, -150, 0, 0, 146, -4], [0; 9]]));
    }

    /// "so showing a tick within ±4,194,304 and taking it in again changes nothing".
    #[test]
    fn ticks_are_shown_and_taken_in_again() {
        for shown in -4_194_304..=4_194_304 {
            assert_eq!(metres(shown).and_then(tick), Ok(shown));
        }
        assert_eq!(metres((1 << 53) - 1), Ok(((1i64 << 53) - 1) as f64 / 4_096.0));
        assert_eq!(metres(1 << 53), Err(Refusal { number: 12, block: 0 }));
        assert_eq!(metres(i64::MIN), Err(Refusal { number: 12, block: 0 }));
    }

    /// Checked arithmetic: in this build a product that leaves 64 bits ends the program.
    #[test]
    #[should_panic(expected = "overflow")]
    fn an_overflow_panics() {
        black_box(flow(black_box(i64::MAX), black_box(2)));
    }
}
