//! Shows that the harness notices what it is there to notice.

use differential::cases::Harness;
use differential::lent::{Lent, Surroundings};
use differential::mutants::MUTANTS;
use differential::subjects::{Independent, Linked, Subject};
use differential::sweep;
use differential::tally::Tally;
use independent::numbers::size;
use independent::Reading;

const SEED: u64 = 1;

/// Enough to meet full books, full lists and full texts many times over.
const RANDOM_CASES: u64 = 60_000;

fn harness(subject: &dyn Subject) -> Harness<'_> {
    Harness {
        subject,
        seed: SEED,
        surroundings: Surroundings::Guarded,
    }
}

/// The number of the first random case in which the subject is found wrong.
fn found(subject: &dyn Subject) -> Option<u64> {
    let harness = harness(subject);
    let mut tally = Tally::default();
    let cases = sweep::CASES..sweep::CASES + RANDOM_CASES;
    cases
        .into_iter()
        .find(|&number| harness.check(number, &mut tally).is_err())
}

#[test]
fn every_wrong_engine_is_found() {
    let missed: Vec<&str> = MUTANTS
        .iter()
        .filter(|mutant| found(*mutant).is_none())
        .map(|mutant| mutant.name)
        .collect();
    assert!(missed.is_empty(), "not found: {missed:?}");
}

#[test]
fn right_engines_are_not_accused() {
    assert_eq!(found(&Independent), None);
    assert_eq!(found(&Linked::PLAIN_C), None);
}

#[test]
fn every_refusal_is_met() {
    let mut tally = Tally::default();
    for number in sweep::CASES..sweep::CASES + RANDOM_CASES {
        harness(&Independent).check(number, &mut tally).unwrap();
    }
    assert_eq!(tally.missing(), Vec::<String>::new());
}

/// Right but for one entry of the tables.
struct WrongRule {
    seat: [u8; 3],
    message: u8,
}

impl Subject for WrongRule {
    fn run(&self, book: &mut Lent, events: &mut Lent, answers: &mut Lent) -> u32 {
        let alone = book.len() == size::HEADER + size::ACTIVITY + size::SEAT;
        let here = alone && book.bytes()[11..] == self.seat;
        let returned = Independent.run(book, events, answers);
        if here && returned == 0 && events.bytes()[3] == self.message {
            answers.bytes_mut()[3] ^= 1;
        }
        returned
    }

    fn read_journal(&self, text: &mut Lent, events: &mut Lent) -> Reading {
        Independent.read_journal(text, events)
    }
}

/// A wrong entry anywhere is found by the sweep alone.
#[test]
fn the_sweep_meets_every_rule() {
    let entries = [
        ([1, 1, 1], 1),
        ([1, 2, 15], 14),
        ([2, 1, 12], 7),
        ([2, 2, 13], 8),
        ([1, 2, 3], 9),
    ];
    for (seat, message) in entries {
        let wrong = WrongRule { seat, message };
        let mut tally = Tally::default();
        let met =
            (0..sweep::CASES).any(|number| harness(&wrong).check(number, &mut tally).is_err());
        assert!(met, "seat {seat:?}, message {message}");
    }
}

/// Right in all but the action, which it takes from the event's place in the list.
struct MindsPlaces;

impl Subject for MindsPlaces {
    fn run(&self, book: &mut Lent, events: &mut Lent, answers: &mut Lent) -> u32 {
        let returned = Independent.run(book, events, answers);
        for (place, answer) in answers
            .bytes_mut()
            .chunks_exact_mut(size::ANSWER)
            .enumerate()
        {
            answer[2] = place as u8;
        }
        returned
    }

    fn read_journal(&self, text: &mut Lent, events: &mut Lent) -> Reading {
        Independent.read_journal(text, events)
    }
}

#[test]
fn an_answer_that_minds_places_differs_between_interleavings() {
    let mut tally = Tally::default();
    let cases = sweep::CASES..sweep::CASES + RANDOM_CASES;
    let findings = cases.filter_map(|number| harness(&MindsPlaces).check(number, &mut tally).err());
    let mut of_pairs = findings.filter(|finding| finding.contains("interleavings"));
    assert!(of_pairs.next().is_some());
}
