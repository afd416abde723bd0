//! Readers wrong in one way.

use super::right_read;
use crate::lent::Lent;
use independent::numbers::{limit, refusal, size};
use independent::Reading;

fn is(reading: Reading, number: u8) -> bool {
    reading.refusal == u32::from(number)
}

pub fn made_up_count(text: &mut Lent, events: &mut Lent) -> Reading {
    let mut reading = right_read(text, events);
    if is(reading, refusal::NOTHING) {
        reading.count = (text.len() / 12) as u32;
    }
    reading
}

pub fn line_from_zero(text: &mut Lent, events: &mut Lent) -> Reading {
    let mut reading = right_read(text, events);
    reading.line = reading.line.saturating_sub(1);
    reading
}

pub fn refusal_keeps_count(text: &mut Lent, events: &mut Lent) -> Reading {
    let mut reading = right_read(text, events);
    reading.count = reading.count.max(reading.line.saturating_sub(1));
    reading
}

/// Writes the good lines before the refused one.
pub fn refused_reading_writes(text: &mut Lent, events: &mut Lent) -> Reading {
    let reading = right_read(text, events);
    if reading.line > 1 {
        let good = reading.line as usize - 1;
        let ends = text
            .bytes()
            .iter()
            .enumerate()
            .filter(|(_, &byte)| byte == b'\n');
        let end = ends.map(|(at, _)| at + 1).nth(good - 1).unwrap_or(0);
        independent::read_journal(&text.bytes()[..end], events.bytes_mut());
    }
    reading
}

/// Says 25 for a bad line too where there is no room.
pub fn room_judged_first(text: &mut Lent, events: &mut Lent) -> Reading {
    let mut reading = right_read(text, events);
    let full = reading.line as usize == events.len() / size::EVENT + 1;
    if full && is(reading, refusal::LINE_NAME) {
        reading.refusal = u32::from(refusal::LINE_ROOM);
    }
    reading
}

/// Takes 4,097 lines where the area has room for them.
pub fn one_event_too_many(text: &mut Lent, events: &mut Lent) -> Reading {
    let reading = right_read(text, events);
    let line = reading.line as usize;
    if is(reading, refusal::LINE_ROOM)
        && line == limit::EVENTS + 1
        && events.len() >= size::EVENT * line
    {
        return Reading {
            refusal: 0,
            line: 0,
            count: reading.line,
        };
    }
    reading
}

pub fn no_full_text(text: &mut Lent, events: &mut Lent) -> Reading {
    if text.len() == limit::TEXT_BYTES {
        return Reading {
            refusal: u32::from(refusal::TEXT_LONG),
            line: 0,
            count: 0,
        };
    }
    right_read(text, events)
}

/// The refused line, to its newline or to where the text ends.
fn refused_line(text: &Lent, reading: Reading) -> Vec<u8> {
    let mut lines = text.bytes().split(|&byte| byte == b'\n');
    lines
        .nth(reading.line.saturating_sub(1) as usize)
        .unwrap_or_default()
        .to_vec()
}

/// A reader that, where the right one refuses a line with that number, takes the
/// lines that `taken` names.
fn lenient(text: &mut Lent, events: &mut Lent, number: u8, taken: fn(&[u8]) -> bool) -> Reading {
    let reading = right_read(text, events);
    if is(reading, number) && taken(&refused_line(text, reading)) {
        return Reading {
            refusal: 0,
            line: 0,
            count: reading.line,
        };
    }
    reading
}

pub fn leading_zeros(text: &mut Lent, events: &mut Lent) -> Reading {
    lenient(text, events, refusal::LINE_SEAT, |line| {
        line.starts_with(b"007 ")
    })
}

pub fn seat_wraps(text: &mut Lent, events: &mut Lent) -> Reading {
    lenient(text, events, refusal::LINE_SEAT, |line| {
        line.starts_with(b"65536 ")
    })
}

pub fn carriage_returns(text: &mut Lent, events: &mut Lent) -> Reading {
    lenient(text, events, refusal::LINE_NAME, |line| {
        line.ends_with(b"\r")
    })
}

pub fn old_spelling(text: &mut Lent, events: &mut Lent) -> Reading {
    lenient(text, events, refusal::LINE_NAME, |line| {
        line.ends_with(b" Cancelled")
    })
}

/// Takes a last line that lacks its newline.
pub fn last_line_open(text: &mut Lent, events: &mut Lent) -> Reading {
    lenient(text, events, refusal::LINE_LONG, |line| {
        line.ends_with(b" got Exit")
    })
}

pub fn byte_past_records(text: &mut Lent, events: &mut Lent) -> Reading {
    let reading = right_read(text, events);
    let written = size::EVENT * reading.count as usize;
    if let Some(byte) = events.bytes_mut().get_mut(written) {
        *byte = 0;
    }
    reading
}

pub fn byte_past_event_area(text: &mut Lent, events: &mut Lent) -> Reading {
    let reading = right_read(text, events);
    *events.byte_outside(true) = 0;
    reading
}

pub fn writes_text(text: &mut Lent, events: &mut Lent) -> Reading {
    let reading = right_read(text, events);
    if let Some(byte) = text.bytes_mut().last_mut() {
        *byte = 0;
    }
    reading
}
