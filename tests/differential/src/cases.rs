//! Making a case of a seed and a number, and comparing an engine on it.

use crate::books;
use crate::events;
use crate::interleavings::{in_order, interleaving};
use crate::journals;
use crate::lent::{Lent, Surroundings};
use crate::random::Random;
use crate::subjects::Subject;
use crate::sweep;
use crate::tally::Tally;
use independent::numbers::{limit, size};

/// What a run is given; the answer area with what stands in it before.
pub struct RunInputs {
    pub book: Vec<u8>,
    pub events: Vec<u8>,
    pub answers: Vec<u8>,
}

pub struct ReadInputs {
    pub text: Vec<u8>,
    pub events: Vec<u8>,
}

/// A good book, a list, and the same events in another order.
pub struct PairInputs {
    pub book: Vec<u8>,
    pub events: Vec<u8>,
    pub positions: Vec<usize>,
}

pub enum Inputs {
    Run(RunInputs),
    Read(ReadInputs),
    Pair(PairInputs),
}

/// The case of that number: one of the sweep, then random ones without end.
pub fn inputs(number: u64, random: &mut Random) -> Inputs {
    if let Some(inputs) = sweep::inputs(number) {
        return inputs;
    }
    match random.below(100) {
        0..=54 => Inputs::Run(run_inputs(random)),
        55..=89 => Inputs::Read(read_inputs(random)),
        _ => Inputs::Pair(pair_inputs(random)),
    }
}

fn run_inputs(random: &mut Random) -> RunInputs {
    let mut book = books::good_book(books::counts(random), random);
    if random.percent(35) {
        for _ in 0..random.pick(&[1, 1, 1, 2, 2, 3]) {
            books::damage(&mut book, random);
        }
    }
    let count = events::event_count(random);
    let mut events = events::event_list(&book, count, random);
    match random.below(2000) {
        0 => events = random.bytes(size::EVENT * (limit::EVENTS + 1)),
        1..=100 => {
            let odd = random.within(1, 3);
            events.extend(random.bytes(odd));
        }
        _ => {}
    }
    let answers = area(events.len(), random);
    RunInputs {
        book,
        events,
        answers,
    }
}

fn read_inputs(random: &mut Random) -> ReadInputs {
    let text = journals::journal(random);
    let lines = text.iter().filter(|&&byte| byte == b'\n').count();
    let events = area(size::EVENT * lines, random);
    ReadInputs { text, events }
}

fn pair_inputs(random: &mut Random) -> PairInputs {
    let mut counts = books::counts(random);
    counts.activities = counts.activities.max(1);
    counts.seats = counts.seats.max(1);
    let book = books::good_book(counts, random);
    let count = events::event_count(random);
    let events = events::walk(&book, count, random.pick(&[70, 95]), random);
    let positions = interleaving(&book, &events, random);
    PairInputs {
        book,
        events,
        positions,
    }
}

/// An area for that many bytes, exact, long or short, with any bytes in it.
fn area(needed: usize, random: &mut Random) -> Vec<u8> {
    let length = match random.below(100) {
        0..=59 => needed,
        60..=84 => needed + random.within(1, 40),
        85..=92 => needed.saturating_sub(random.within(1, 4)),
        _ => random.below(needed + 1),
    };
    random.bytes(length)
}

/// How cases are made and compared.
pub struct Harness<'a> {
    pub subject: &'a dyn Subject,
    pub seed: u64,
    pub surroundings: Surroundings,
}

impl Harness<'_> {
    /// Compares the engine on the case of that number; what differed, if anything.
    pub fn check(&self, number: u64, tally: &mut Tally) -> Result<(), String> {
        let mut random = Random::new(self.seed, number);
        match inputs(number, &mut random) {
            Inputs::Run(inputs) => self.check_run(&inputs, &mut random, tally),
            Inputs::Read(inputs) => self.check_read(&inputs, &mut random, tally),
            Inputs::Pair(inputs) => self.check_pair(&inputs, &mut random, tally),
        }
    }

    fn lend(&self, contents: &[u8], random: &mut Random) -> Lent {
        Lent::new(contents, self.surroundings, random)
    }

    fn check_run(
        &self,
        inputs: &RunInputs,
        random: &mut Random,
        tally: &mut Tally,
    ) -> Result<(), String> {
        let mut book = self.lend(&inputs.book, random);
        let mut events = self.lend(&inputs.events, random);
        let mut answers = self.lend(&inputs.answers, random);
        let (mut expected_book, mut expected_answers) = (book.clone(), answers.clone());
        let expected_events = events.clone();
        let expected = independent::run(
            expected_book.bytes_mut(),
            expected_events.bytes(),
            expected_answers.bytes_mut(),
        );
        let written = if expected == 0 {
            inputs.events.len()
        } else {
            0
        };
        tally.run(expected, &expected_answers.bytes()[..written]);
        let returned = self.subject.run(&mut book, &mut events, &mut answers);
        if returned != expected {
            return Err(format!("run returned {returned}, expected {expected}"));
        }
        same("book", &book, &expected_book)?;
        same("events", &events, &expected_events)?;
        same("answers", &answers, &expected_answers)
    }

    fn check_read(
        &self,
        inputs: &ReadInputs,
        random: &mut Random,
        tally: &mut Tally,
    ) -> Result<(), String> {
        let mut text = self.lend(&inputs.text, random);
        let mut events = self.lend(&inputs.events, random);
        let (expected_text, mut expected_events) = (text.clone(), events.clone());
        let expected =
            independent::read_journal(expected_text.bytes(), expected_events.bytes_mut());
        tally.reading(expected);
        let returned = self.subject.read_journal(&mut text, &mut events);
        if returned != expected {
            return Err(format!(
                "reader returned {returned:?}, expected {expected:?}"
            ));
        }
        same("text", &text, &expected_text)?;
        same("events", &events, &expected_events)
    }

    /// The engine against itself: in the other order each event has the same
    /// answer, and the book ends the same.
    fn check_pair(
        &self,
        inputs: &PairInputs,
        random: &mut Random,
        tally: &mut Tally,
    ) -> Result<(), String> {
        tally.interleaving();
        let other_events = in_order(&inputs.events, &inputs.positions);
        let (book, answers) = self.run_well(&inputs.book, &inputs.events, random)?;
        let (other_book, other_answers) = self.run_well(&inputs.book, &other_events, random)?;
        if other_answers != in_order(&answers, &inputs.positions) {
            return Err("answers differ between two interleavings".to_string());
        }
        if other_book != book {
            return Err("books differ after two interleavings".to_string());
        }
        Ok(())
    }

    fn run_well(
        &self,
        book: &[u8],
        events: &[u8],
        random: &mut Random,
    ) -> Result<(Vec<u8>, Vec<u8>), String> {
        let before = [
            self.lend(book, random),
            self.lend(events, random),
            self.lend(&vec![0xEE; events.len()], random),
        ];
        let [mut book, mut events, mut answers] = before.clone();
        let returned = self.subject.run(&mut book, &mut events, &mut answers);
        if returned != 0 {
            return Err(format!("a good book and list refused {returned}"));
        }
        same("events", &events, &before[1])?;
        if book.outside() != before[0].outside() || answers.outside() != before[2].outside() {
            return Err("a byte outside the book or the answers changed".to_string());
        }
        Ok((book.bytes().to_vec(), answers.bytes().to_vec()))
    }
}

fn same(what: &str, lent: &Lent, expected: &Lent) -> Result<(), String> {
    match lent.difference(expected) {
        Some(difference) => Err(format!("{what}: {difference}")),
        None => Ok(()),
    }
}

/// The case's inputs in hex, a line for each.
pub fn describe(inputs: &Inputs) -> String {
    match inputs {
        Inputs::Run(run) => format!(
            "book {}\nevents {}\nanswer area {}",
            hex(&run.book),
            hex(&run.events),
            hex(&run.answers)
        ),
        Inputs::Read(read) => format!(
            "text {} = {:?}\nevent area {}",
            hex(&read.text),
            String::from_utf8_lossy(&read.text),
            hex(&read.events)
        ),
        Inputs::Pair(pair) => format!(
            "book {}\nevents {}\nother order {:?}",
            hex(&pair.book),
            hex(&pair.events),
            pair.positions
        ),
    }
}

fn hex(bytes: &[u8]) -> String {
    bytes.iter().map(|byte| format!("{byte:02x}")).collect()
}
