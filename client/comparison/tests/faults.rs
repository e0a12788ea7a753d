//! An engine with a deliberate fault is found out by the same comparison that the archive passes.

use caydubeesh::{kind, slot};
use comparison::dice::Dice;
use comparison::engines::{Archive, Engine, Reference};
use comparison::exact;
use comparison::generator;
use comparison::generator::heads::tuned;
use comparison::slices::{place, Slices, SLOTS};
use comparison::tally::Tally;
use reference::Refusal;

/// Within so many inputs a fault is found.
const INPUTS: u64 = 3_000;

#[derive(Clone, Copy, Debug, PartialEq)]
enum Fault {
    None,
    ReaderStoresNothing,
    ReaderWritesBeyond,
    RefusedReaderWrites,
    CheckAcceptsAll,
    CheckRefusesAll,
    BlockIsNotNamed,
    WeightBesideWholeDelta,
    PairFourApart,
    WeightsAsWholeDelta,
    VerdictOfZerosForLayers,
    VerdictCountsOnePlace,
    TableOfZeros,
    BoundaryInOtherFluid,
    SeaInflowUppermost,
    FlowsCut,
    HalfLitresTowardZero,
    EdgesNetted,
    HeadsReachAll,
    ReportOfHeldInterface,
    HalvesAwayFromZero,
    FloorAboveZero,
    RefusedMetresWritten,
}

/// The archive with a fault.
struct Faulty(Fault);

/// What a sea brings to a block that has fresh water on top, litres a day: what document 01 without W-201 counts in its fresh water. Such a
/// block leaves both heads free, so that its error has it too.
fn under_fresh(case: &Slices, number: usize) -> i64 {
    let lines = Archive.block_table(case, number).unwrap();
    let is_under = case.block(number)[slot::KIND] == kind::SEA && matches!(exact::thickness(case, number), Some([fresh, _]) if fresh > 0);
    if is_under {
        lines[15].max(0)
    } else {
        0
    }
}

/// What rounding to the nearest litre adds to the exchange with a river over fresh water that is cut, as document 01 has it without W-206.
fn beyond_cut(case: &Slices, number: usize) -> i64 {
    exact::river(case, number).map_or(0, |parts| parts % exact::PARTS * 2 / exact::PARTS)
}

/// What rounding halves away from zero adds to the exchange with such a river where they are rounded toward zero.
fn beyond_half(case: &Slices, number: usize) -> i64 {
    exact::river(case, number).filter(|&parts| exact::is_half(parts)).map_or(0, i64::signum)
}

/// The sum of some litres a day over the marked blocks.
fn over_marked(case: &Slices, marks: &[i64], litres: fn(&Slices, usize) -> i64) -> i64 {
    (1..=case.blocks()).filter(|&number| marks[number - 1] == 1).map(|number| litres(case, number)).sum()
}

/// The case with weights as a check with this fault takes them: none beside a whole δ, or 4 apart as if 5.
fn let_pass(fault: Fault, case: &Slices) -> Slices {
    let mut taken = case.clone();
    if let Some([delta, fresh, salt]) = taken.record.get_mut(place::DELTA..=place::SALT_WEIGHT) {
        match fault {
            Fault::WeightBesideWholeDelta if *delta != 0 => (*fresh, *salt) = (0, 0),
            Fault::PairFourApart if salt.wrapping_sub(*fresh) == 4 => *salt = salt.wrapping_add(1),
            _ => {}
        }
    }
    taken
}

/// A well-formed case with a whole δ in place of its weights: the whole number nearest to fresh over their difference, at most 100.
fn as_whole_delta(case: &Slices) -> Slices {
    let [light, heavy] = case.weights();
    case.with_density([((light + heavy) / (2 * (heavy - light))).min(100), 0, 0])
}

impl Engine for Faulty {
    fn read(&self, file: &[u8], lent: &mut Slices, block: &mut usize) -> u64 {
        let before = lent.clone();
        let refusal = Archive.read(file, lent, block);
        match self.0 {
            Fault::ReaderStoresNothing => *lent = before,
            Fault::ReaderWritesBeyond if refusal == 0 => lent.slots.iter_mut().skip(16).for_each(|slot| *slot = (*slot).max(0)),
            Fault::RefusedReaderWrites if refusal == 8 => lent.columns.fill(0),
            _ => {}
        }
        refusal
    }

    fn check(&self, case: &Slices, block: &mut usize) -> u64 {
        let refusal = Archive.check(&let_pass(self.0, case), block);
        match self.0 {
            Fault::CheckAcceptsAll => {
                *block = 0;
                0
            }
            Fault::CheckRefusesAll if refusal == 0 => 4,
            Fault::BlockIsNotNamed => {
                *block = 0;
                refusal
            }
            _ => refusal,
        }
    }

    fn verdict(&self, case: &Slices, verdict: &mut [i64], block: &mut usize) -> u64 {
        let refusal = Archive.verdict(case, verdict, block);
        match self.0 {
            Fault::WeightsAsWholeDelta if refusal == 0 => _ = Archive.verdict(&as_whole_delta(case), verdict, block),
            Fault::VerdictOfZerosForLayers if refusal == 0 && case.record[place::LAYERS] > 1 => verdict[..4].fill(0),
            Fault::VerdictCountsOnePlace if refusal == 0 => verdict[2] = verdict[2].min(1),
            _ => {}
        }
        refusal
    }

    fn zone_table(&self, case: &Slices, marks: &[i64], lines: &mut [i64], block: &mut usize) -> u64 {
        let refusal = Archive.zone_table(case, marks, lines, block);
        match self.0 {
            Fault::TableOfZeros if refusal == 0 => lines[..18].fill(0),
            Fault::BoundaryInOtherFluid if refusal == 0 => lines.swap(6, 15),
            Fault::SeaInflowUppermost if refusal == 0 => {
                let brought = over_marked(case, marks, under_fresh);
                for (fresh, salt) in [(6, 15), (8, 17)] {
                    lines[fresh] += brought;
                    lines[salt] -= brought;
                }
            }
            // A river's block leaves both heads free, so that its error has what the boundary line has.
            Fault::FlowsCut if refusal == 0 => {
                let beyond = over_marked(case, marks, beyond_cut);
                [6, 8].into_iter().for_each(|line| lines[line] -= beyond);
            }
            Fault::HalfLitresTowardZero if refusal == 0 => {
                let beyond = over_marked(case, marks, beyond_half);
                [6, 8].into_iter().for_each(|line| lines[line] -= beyond);
            }
            Fault::EdgesNetted if refusal == 0 => {
                let both = lines[1].min(lines[2]);
                lines[1..3].iter_mut().for_each(|line| *line -= both);
            }
            _ => {}
        }
        refusal
    }

    /// With the fault every fresh balance has the new fresh heads of all blocks in it.
    fn balances(&self, case: &Slices) -> Result<Vec<[i64; 2]>, Refusal> {
        let all: i64 = case.slots.iter().skip(slot::NEW_FRESH).step_by(SLOTS).sum();
        let added = if self.0 == Fault::HeadsReachAll { all } else { 0 };
        Ok(Archive.balances(case)?.into_iter().map(|[fresh, salt]| [fresh + added, salt]).collect())
    }

    fn report(&self, case: &Slices, number: usize, metres: &mut [f64], block: &mut usize) -> u64 {
        let refusal = Archive.report(case, number, metres, block);
        if self.0 == Fault::ReportOfHeldInterface && refusal == 0 {
            let [base, top] = case.span(number).map(|tick| tick as f64 / 4_096.0);
            metres[2] = metres[2].clamp(base, top);
        }
        refusal
    }

    fn tick(&self, metres: f64, tick: &mut i64) -> u64 {
        let refusal = Archive.tick(metres, tick);
        if self.0 == Fault::HalvesAwayFromZero && refusal == 0 {
            *tick = (metres * 4_096.0).round() as i64;
        }
        refusal
    }

    fn floor_tick(&self, metres: f64, tick: &mut i64) -> u64 {
        match self.0 {
            Fault::FloorAboveZero => Archive.tick(metres, tick),
            _ => Archive.floor_tick(metres, tick),
        }
    }

    fn metres(&self, tick: i64, metres: &mut f64) -> u64 {
        let refusal = Archive.metres(tick, metres);
        if self.0 == Fault::RefusedMetresWritten && refusal != 0 {
            *metres = tick as f64 / 4_096.0;
        }
        refusal
    }
}

/// The function in which the comparison finds this fault first, and after how many inputs.
fn found(fault: Fault) -> Option<(&'static str, u64)> {
    let mut tally = Tally::default();
    (1..=INPUTS).find_map(|number| {
        let (kind, input) = generator::input(1, number);
        let difference = tally.compare(&Faulty(fault), &Reference, generator::KINDS[kind].name, &input)?;
        Some((difference.one.function, number))
    })
}

#[test]
fn each_fault_is_found_in_its_function() {
    let faults = [
        (Fault::ReaderStoresNothing, "read"),
        (Fault::ReaderWritesBeyond, "read"),
        (Fault::RefusedReaderWrites, "read"),
        (Fault::CheckAcceptsAll, "check"),
        (Fault::CheckRefusesAll, "check"),
        (Fault::BlockIsNotNamed, "check"),
        (Fault::WeightBesideWholeDelta, "check"),
        (Fault::PairFourApart, "check"),
        (Fault::WeightsAsWholeDelta, "verdict"),
        (Fault::VerdictOfZerosForLayers, "verdict"),
        (Fault::VerdictCountsOnePlace, "verdict"),
        (Fault::TableOfZeros, "zone_table"),
        (Fault::BoundaryInOtherFluid, "zone_table"),
        (Fault::SeaInflowUppermost, "zone_table"),
        (Fault::FlowsCut, "zone_table"),
        (Fault::HalfLitresTowardZero, "zone_table"),
        (Fault::EdgesNetted, "zone_table"),
        (Fault::HeadsReachAll, "balances"),
        (Fault::ReportOfHeldInterface, "report"),
        (Fault::HalvesAwayFromZero, "tick"),
        (Fault::FloorAboveZero, "floor_tick"),
        (Fault::RefusedMetresWritten, "metres"),
    ];
    for (fault, function) in faults {
        let found = found(fault).unwrap_or_else(|| panic!("{fault:?} is not found"));
        assert_eq!(found.0, function, "{fault:?}");
    }
}

/// How many of the inputs with other heads in one block have an engine differ from itself, as it does where a head reaches too far.
fn too_far(fault: Fault) -> usize {
    let differs = |number: &u64| {
        let input = tuned(&mut Dice::of_input(1, *number)).into();
        Tally::default().compare(&Faulty(fault), &Faulty(fault), "heads tuned", &input).is_some()
    };
    (1..=INPUTS).filter(differs).count()
}

#[test]
fn a_head_that_reaches_too_far_is_found_beside_itself() {
    assert!(too_far(Fault::HeadsReachAll) >= 100);
    assert_eq!(too_far(Fault::None), 0);
}

#[test]
fn without_a_fault_nothing_is_found() {
    assert_eq!(found(Fault::None), None);
}

#[test]
fn a_difference_says_both_answers_and_the_place() {
    let fault = Faulty(Fault::TableOfZeros);
    let input = comparison::input::Asked::of(Slices::printed()).into();
    let difference = Tally::default().compare(&fault, &Reference, "printed", &input).unwrap();
    let told = "faulty: zone_table returns 0, block 0; [0 0 0 0 0 0 0 0 0 0 0 0 0 0 0 0 0 0]\n\
                reference: zone_table returns 0, block 0; [0 0 0 0 -150 0 0 146 -4 0 0 0 0 0 0 0 0 0]\n\
                slice 1, number 5: 0 and -150\n";
    assert_eq!(difference.told("faulty", "reference"), told);
}
