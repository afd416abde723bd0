//! Cases that are gone through one by one before the random ones: every kind of
//! seat and activity with every event, and every seat number in a journal.

use crate::cases::{Inputs, ReadInputs, RunInputs};
use crate::events::event;
use independent::journal::NAMES;
use independent::numbers::size;

/// The first number past each field's range, bad values on both sides included.
const KINDS: u64 = 4;
const DIRECTIONS: u64 = 4;
const ROLES: u64 = 4;
const TABLES: u64 = 4;
const STATES: u64 = 18;
const WAYS: u64 = 3;
const MESSAGES: u64 = 16;

const RUNS: u64 = KINDS * DIRECTIONS * ROLES * TABLES * STATES * WAYS * MESSAGES;

const LINES: u64 = 1024;
/// All 65,536 seat numbers and the first ones that are too high.
const READINGS: u64 = 65_536 / LINES + 1;

pub const CASES: u64 = RUNS + READINGS;

/// The sweep's case of that number; none past its end.
pub fn inputs(number: u64) -> Option<Inputs> {
    if number < RUNS {
        Some(Inputs::Run(one_event(number)))
    } else if number < CASES {
        Some(Inputs::Read(seat_numbers(LINES * (number - RUNS))))
    } else {
        None
    }
}

fn one_event(number: u64) -> RunInputs {
    let mut left = number;
    let mut field = |values: u64| {
        let value = (left % values) as u8;
        left /= values;
        value
    };
    let message = field(MESSAGES);
    let way = field(WAYS);
    let seat = [0, field(ROLES), field(TABLES), field(STATES)];
    let activity = [field(KINDS), field(DIRECTIONS)];
    let mut book = vec![1, 0, 1, 0, 8, 0, 10, 0];
    book.extend(activity);
    book.extend(seat);
    RunInputs {
        book,
        events: event(0, way, message).to_vec(),
        answers: vec![0xEE; size::ANSWER],
    }
}

fn seat_numbers(from: u64) -> ReadInputs {
    let mut text = Vec::new();
    for seat in from..from + LINES {
        let way = if seat % 3 == 0 { "got " } else { "sent " };
        text.extend(format!("{seat} {way}").as_bytes());
        text.extend(NAMES[(seat % NAMES.len() as u64) as usize].0);
        text.push(b'\n');
    }
    ReadInputs {
        text,
        events: vec![0xEE; size::EVENT * LINES as usize],
    }
}
