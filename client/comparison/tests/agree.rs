//! The archive and the reference agree on inputs of every kind.

use comparison::dice::Dice;
use comparison::engines::{Archive, Reference};
use comparison::generator::KINDS;
use comparison::input::Input;
use comparison::kept;
use comparison::session;
use comparison::tally::Tally;

const SEED: u64 = 20;

#[test]
fn on_inputs_of_every_kind() {
    let mut tally = Tally::default();
    for kind in KINDS {
        let count = if kind.name == "large grid" { 100 } else { 1_000 };
        for number in 1..=count {
            let input = (kind.make)(&mut Dice::of_input(SEED, number));
            if let Some(difference) = tally.compare(&Archive, &Reference, kind.name, &input) {
                panic!("{}\n{}{}", kind.name, difference.told("archive", "reference"), kept::line(&input));
            }
        }
    }
    assert_eq!((tally.inputs, tally.differ), (100 + 1_000 * (KINDS.len() - 1), 0));
    for refusal in 0..=14 {
        assert!(tally.refusals[&refusal] >= 100, "refusal {refusal} is rare\n{tally}");
    }
    for code in [0, 21, 22, 23, 24] {
        assert!(tally.codes[&code] >= 200, "code {code} is rare\n{tally}");
    }
}

/// What the program prints is worked out from the archive's answers here, and by the reference itself.
#[test]
fn on_what_the_program_prints() {
    let mut read = 0;
    for kind in KINDS {
        for number in 1..=300 {
            let Input::File(file) = (kind.make)(&mut Dice::of_input(SEED, number)) else {
                break;
            };
            let printed = reference::printed(&file.bytes);
            assert_eq!(session::printed(&Archive, &file.bytes), printed, "{}", kept::line(&Input::File(file)));
            read += usize::from(printed.contains("all salt"));
        }
    }
    assert!(read >= 200, "{read} files are read");
    for length in [0, 28_672, 28_673] {
        assert_eq!(session::printed(&Archive, &vec![1; length]), reference::printed(&vec![1; length]));
    }
}
