//! What the cases met so far, to show that no refusal went untried.

use independent::numbers::size;
use independent::Reading;
use std::collections::BTreeMap;
use std::fmt;

#[derive(Default)]
pub struct Tally {
    runs: BTreeMap<u32, u64>,
    events: BTreeMap<u32, u64>,
    actions: BTreeMap<u32, u64>,
    readings: BTreeMap<u32, u64>,
    interleavings: u64,
}

const RUN_NUMBERS: [u32; 8] = [0, 1, 2, 3, 4, 5, 6, 7];
const EVENT_NUMBERS: [u32; 6] = [0, 11, 12, 13, 14, 15];
const ACTION_NUMBERS: [u32; 4] = [0, 1, 2, 3];
const READING_NUMBERS: [u32; 7] = [0, 21, 22, 23, 24, 25, 26];

impl Tally {
    /// Counts a run by its refusal and by the answers it wrote.
    pub fn run(&mut self, refusal: u32, answers: &[u8]) {
        *self.runs.entry(refusal).or_default() += 1;
        for answer in answers.chunks_exact(size::ANSWER) {
            *self.events.entry(u32::from(answer[0])).or_default() += 1;
            if answer[0] == 0 {
                *self.actions.entry(u32::from(answer[2])).or_default() += 1;
            }
        }
    }

    pub fn reading(&mut self, reading: Reading) {
        *self.readings.entry(reading.refusal).or_default() += 1;
    }

    pub fn interleaving(&mut self) {
        self.interleavings += 1;
    }

    /// What a long run must have met and didn't.
    pub fn missing(&self) -> Vec<String> {
        let mut missing = Vec::new();
        let mut demand = |what: &str, met: &BTreeMap<u32, u64>, numbers: &[u32]| {
            for number in numbers.iter().filter(|number| !met.contains_key(number)) {
                missing.push(format!("{what} {number}"));
            }
        };
        demand("run", &self.runs, &RUN_NUMBERS);
        demand("event", &self.events, &EVENT_NUMBERS);
        demand("action", &self.actions, &ACTION_NUMBERS);
        demand("reading", &self.readings, &READING_NUMBERS);
        if self.interleavings == 0 {
            missing.push("interleaving".to_string());
        }
        missing
    }
}

impl fmt::Display for Tally {
    fn fmt(&self, out: &mut fmt::Formatter) -> fmt::Result {
        let rows = [
            ("runs by refusal", &self.runs),
            ("events by refusal", &self.events),
            ("legal events by action", &self.actions),
            ("readings by refusal", &self.readings),
        ];
        for (title, counts) in rows {
            write!(out, "{title}:")?;
            for (number, count) in counts {
                write!(out, " {number}:{count}")?;
            }
            writeln!(out)?;
        }
        write!(out, "pairs of interleavings: {}", self.interleavings)
    }
}
