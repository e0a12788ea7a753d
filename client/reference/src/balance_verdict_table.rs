//! Document 01, "Balance, verdict, table".

use crate::lateral_face::lateral_flow;
use crate::leakage_river_and_sea::{boundary, dry_well, leakage, recharge, wells};
use crate::one_block::{levels, storage, Levels};
use crate::refusal_numbers::{judge, judge_counts, judged, DRY_WELL, MARK, ROOM};
use crate::units_and_ranges::{fixed, Grid, Site, FLUIDS};
use crate::{Case, Refusal, Verdict};

/// "nine lines: storage, edge in, edge out, converted, wells, recharge, boundary, supply, error."
pub(crate) const LINES: usize = 9;
const STORAGE: usize = 0;
const EDGE_IN: usize = 1;
const EDGE_OUT: usize = 2;
const CONVERTED: usize = 3;
const WELLS: usize = 4;
const RECHARGE: usize = 5;
const BOUNDARY: usize = 6;
const SUPPLY: usize = 7;
const ERROR: usize = 8;

/// "two rows, fresh and salt, of nine lines". In litres a day.
pub(crate) type Table = [[i64; LINES]; 2];

/// "else 0, accepted."
const ACCEPTED: Verdict = Verdict { code: 0, block: 0, count: 0, largest: 0 };
const HEAD_MOVED: i64 = 21;
const WELL_DRY: i64 = 22;
/// 23 by fresh water, 24 by salt water.
const BEYOND_TOLERANCE: [i64; 2] = [23, 24];

/// A fluid in a block, whose index counts from 0.
#[derive(Clone, Copy)]
struct Place {
    block: usize,
    fluid: usize,
}

/// A flow from one block into another, through a lateral face or by leakage: "Water leaves as the fluid named for the block it leaves
/// and arrives as the fluid named for the block it enters."
struct Link {
    from: Place,
    to: Place,
    /// A day, above 0.
    litres: i64,
}

/// What a block has of its own, by fluid, litres a day.
#[derive(Default)]
struct Terms {
    storage: [i64; 2],
    wells: [i64; 2],
    recharge: [i64; 2],
    boundary: [i64; 2],
}

/// What is worked out of a case with its new heads.
pub(crate) struct Budget {
    /// By block and fluid, litres a day.
    balances: Vec<[i64; 2]>,
    /// One for each zone that was asked for.
    pub tables: Vec<Table>,
}

/// One more place that fails: the first gives the code and the block.
fn count_place(verdict: &mut Verdict, code: i64, index: usize) {
    if verdict.count == 0 {
        verdict.code = code;
        verdict.block = index + 1;
    }
    verdict.count += 1;
}

/// "21 if any fixed head moved from old to new"; "for 21 each moved head".
fn moved_heads(grid: &Grid) -> Verdict {
    let mut verdict = ACCEPTED;
    for (index, block) in grid.blocks.iter().enumerate() {
        for fluid in FLUIDS {
            if fixed(block.kind, fluid) && block.old_heads[fluid] != block.new_heads[fluid] {
                count_place(&mut verdict, HEAD_MOVED, index);
            }
        }
    }
    verdict
}

/// The levels of all blocks by their new heads. An inactive block has 0 everywhere.
fn all_levels(grid: &Grid) -> Vec<Levels> {
    let mut all = vec![Levels::default(); grid.blocks.len()];
    for (index, block) in grid.blocks.iter().enumerate() {
        if block.active() {
            all[index] = levels(&grid.record, block, grid.water_table(index), block.new_heads);
        }
    }
    all
}

/// "22 if any well is dry"; "for 22 each dry well".
fn dry_wells(grid: &Grid, levels: &[Levels]) -> Verdict {
    let mut verdict = ACCEPTED;
    for (index, block) in grid.blocks.iter().enumerate() {
        if dry_well(block, &levels[index]) {
            count_place(&mut verdict, WELL_DRY, index);
        }
    }
    verdict
}

/// Storage, wells, recharge and boundary of a block.
fn own_terms(grid: &Grid, levels: &Levels, site: Site) -> Terms {
    let block = &grid.blocks[site.index];
    if !block.active() {
        return Terms::default();
    }
    let (area, water_table) = (grid.area(site), grid.water_table(site.index));
    Terms {
        storage: storage(&grid.record, block, area, water_table, levels),
        wells: wells(block, levels),
        recharge: recharge(block, area, water_table),
        boundary: boundary(&grid.record, block, levels, area, water_table),
    }
}

/// The same of all blocks.
fn all_terms(grid: &Grid, levels: &[Levels]) -> Vec<Terms> {
    let mut terms = Vec::with_capacity(levels.len());
    let mut index = 0;
    for _layer in 0..grid.counts.layers {
        for row in 0..grid.counts.rows {
            for column in 0..grid.counts.columns {
                terms.push(own_terms(grid, &levels[index], Site { index, row, column }));
                index += 1;
            }
        }
    }
    terms
}

/// Books a flow that is above 0 from the first place to the second.
fn book_flow(book: &mut impl FnMut(Link), first: Place, second: Place, litres: i64) {
    if litres > 0 {
        book(Link { from: first, to: second, litres });
    }
    if litres < 0 {
        book(Link { from: second, to: first, litres: -litres });
    }
}

/// Books the flows between a block and the next column, the next row and the block above.
fn book_links(book: &mut impl FnMut(Link), grid: &Grid, levels: &[Levels], site: Site) {
    for face in grid.faces(site).iter().flatten() {
        for fluid in FLUIDS {
            let (first, second) = (Place { block: face.first, fluid }, Place { block: face.second(), fluid });
            book_flow(book, first, second, lateral_flow(grid, levels, face, fluid));
        }
    }
    if let Some(above) = grid.active_above(site.index) {
        let leakage = leakage(grid, levels, site, above);
        let lower = Place { block: site.index, fluid: leakage.lower_fluid };
        let upper = Place { block: above, fluid: leakage.upper_fluid };
        book_flow(book, lower, upper, leakage.litres);
    }
}

/// Books every flow between two blocks once, from its block with the lower number.
fn book_all_links(mut book: impl FnMut(Link), grid: &Grid, levels: &[Levels]) {
    let mut index = 0;
    for _layer in 0..grid.counts.layers {
        for row in 0..grid.counts.rows {
            for column in 0..grid.counts.columns {
                book_links(&mut book, grid, levels, Site { index, row, column });
                index += 1;
            }
        }
    }
}

/// "Balance of a block in a fluid = all inflow less outflow, plus recharge, plus boundary, less wells, less storage rate.": all but inflow
/// and outflow.
fn own_balance(terms: &Terms) -> [i64; 2] {
    FLUIDS.map(|fluid| terms.recharge[fluid] + terms.boundary[fluid] - terms.wells[fluid] - terms.storage[fluid])
}

/// "Edge lines count only lateral faces and leakage pairs with one side marked, inflow as the fluid that arrives and outflow as the fluid
/// that leaves. Converted is the net gain of that fluid over marked pairs joined by leakage that changes fluid."
fn add_link_lines(table: &mut Table, marks: &[i64], link: &Link) {
    match (marks[link.from.block] == 1, marks[link.to.block] == 1) {
        (true, false) => table[link.from.fluid][EDGE_OUT] += link.litres,
        (false, true) => table[link.to.fluid][EDGE_IN] += link.litres,
        (true, true) if link.from.fluid != link.to.fluid => {
            table[link.from.fluid][CONVERTED] -= link.litres;
            table[link.to.fluid][CONVERTED] += link.litres;
        }
        _ => {}
    }
}

/// "Storage, wells (negative where pumped), recharge and boundary are sums over marked active blocks. Supply is minus the balance, summed
/// over marked active blocks fixed in that fluid; error is the balance summed over the other marked active blocks."
fn add_block_lines(table: &mut Table, kind: i64, terms: &Terms, balance: [i64; 2]) {
    for fluid in FLUIDS {
        let lines = &mut table[fluid];
        lines[STORAGE] += terms.storage[fluid];
        lines[WELLS] -= terms.wells[fluid];
        lines[RECHARGE] += terms.recharge[fluid];
        lines[BOUNDARY] += terms.boundary[fluid];
        if fixed(kind, fluid) {
            lines[SUPPLY] -= balance[fluid];
        } else {
            lines[ERROR] += balance[fluid];
        }
    }
}

/// The lines of all marked active blocks.
fn add_blocks_lines(table: &mut Table, marks: &[i64], grid: &Grid, terms: &[Terms], balances: &[[i64; 2]]) {
    for (index, block) in grid.blocks.iter().enumerate() {
        if marks[index] == 1 && block.active() {
            add_block_lines(table, block.kind, &terms[index], balances[index]);
        }
    }
}

/// The balances, and the tables of the zones, each with a mark for every block; or verdict 22 where a well is dry. "A zone is a mark 0 or 1
/// per block. Its table is two rows, fresh and salt, of nine lines".
fn budget(grid: &Grid, zones: &[&[i64]]) -> Result<Budget, Verdict> {
    let levels = all_levels(grid);
    let dry = dry_wells(grid, &levels);
    if dry.count > 0 {
        return Err(dry);
    }
    let terms = all_terms(grid, &levels);
    let mut balances: Vec<[i64; 2]> = terms.iter().map(own_balance).collect();
    let mut tables = vec![[[0; LINES]; 2]; zones.len()];
    let book = |link: Link| {
        balances[link.from.block][link.from.fluid] -= link.litres;
        balances[link.to.block][link.to.fluid] += link.litres;
        for (table, marks) in tables.iter_mut().zip(zones) {
            add_link_lines(table, marks, &link);
        }
    };
    book_all_links(book, grid, &levels);
    for (table, marks) in tables.iter_mut().zip(zones) {
        add_blocks_lines(table, marks, grid, &terms, &balances);
    }
    Ok(Budget { balances, tables })
}

/// "23 or 24 by the first place in block order, fresh before salt in one block, whose head is free and whose balance without sign exceeds
/// the tolerance (23 fresh, 24 salt); else 0, accepted."; "the largest balance without sign among free places".
fn balances_beyond_tolerance(grid: &Grid, balances: &[[i64; 2]]) -> Verdict {
    let mut verdict = ACCEPTED;
    for (index, block) in grid.blocks.iter().enumerate() {
        for fluid in FLUIDS.into_iter().filter(|&fluid| block.active() && !fixed(block.kind, fluid)) {
            let size = balances[index][fluid].abs();
            verdict.largest = verdict.largest.max(size);
            if size > grid.record.tolerance {
                count_place(&mut verdict, BEYOND_TOLERANCE[fluid], index);
            }
        }
    }
    verdict
}

/// "Verdict codes: 21 if any fixed head moved from old to new; if not, 22 if any well is dry; if not, 23 or 24". With 21 and 22 no budget
/// is worked out.
pub(crate) fn verdict_and_budget(grid: &Grid, zones: &[&[i64]]) -> (Verdict, Option<Budget>) {
    let moved = moved_heads(grid);
    if moved.count > 0 {
        return (moved, None);
    }
    match budget(grid, zones) {
        Err(dry) => (dry, None),
        Ok(budget) => (balances_beyond_tolerance(grid, &budget.balances), Some(budget)),
    }
}

/// The verdict on the new heads of a case. "A verdict has the code, the first block concerned (0 if accepted), how many places fail .., and
/// the largest balance without sign among free places (0 for 21, 22, or with no free place)."
pub fn verdict(case: &Case) -> Result<Verdict, Refusal> {
    let grid = judged(case)?;
    Ok(verdict_and_budget(&grid, &[]).0)
}

/// 13, of the first dry well.
fn refused_dry(dry: Verdict) -> Refusal {
    Refusal { number: DRY_WELL, block: dry.block }
}

/// The table of the zone whose blocks are marked with 1, litres a day: the fresh row, then the salt row. "Slices are judged 3, 7, 4, 5, 6,
/// 9, 10; then, for a table, 11 before 13". Marks that are too few are refused in 7's place.
pub fn zone_table(case: &Case, marks: &[i64]) -> Result<[[i64; 9]; 2], Refusal> {
    let blocks = judge_counts(&case.record)?.blocks();
    judge(marks.len() >= blocks, ROOM, 0)?;
    let grid = judged(case)?;
    judge(marks[..blocks].iter().all(|&mark| mark == 0 || mark == 1), MARK, 0)?;
    Ok(budget(&grid, &[marks]).map_err(refused_dry)?.tables[0])
}

/// The balances of every block, fresh before salt, litres a day; 0 in an inactive block. Refused as slices are, then with 13 where a well is
/// dry.
pub fn balances(case: &Case) -> Result<Vec<[i64; 2]>, Refusal> {
    let grid = judged(case)?;
    Ok(budget(&grid, &[]).map_err(refused_dry)?.balances)
}
