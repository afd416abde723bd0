//! The journal reader: lines of text into event records.

use crate::numbers::{limit, message, refusal, size, way};

/// What a reading came to: the refusal and its line, or the count of events.
#[derive(Clone, Copy, Debug, PartialEq, Eq)]
pub struct Reading {
    pub refusal: u32,
    pub line: u32,
    pub count: u32,
}

type Event = [u8; size::EVENT];

/// The shortest line is `0 got Exit` with its newline.
const SHORTEST_LINE_BYTES: usize = 11;

/// The message names as spelled in a journal, with their numbers.
pub const NAMES: [(&[u8], u8); 14] = [
    (b"Cancel", message::CANCEL),
    (b"Complete", message::COMPLETE),
    (b"Close", message::CLOSE),
    (b"Compensate", message::COMPENSATE),
    (b"Failed", message::FAILED),
    (b"Exited", message::EXITED),
    (b"NotCompleted", message::NOT_COMPLETED),
    (b"Exit", message::EXIT),
    (b"Completed", message::COMPLETED),
    (b"Fail", message::FAIL),
    (b"CannotComplete", message::CANNOT_COMPLETE),
    (b"Canceled", message::CANCELED),
    (b"Closed", message::CLOSED),
    (b"Compensated", message::COMPENSATED),
];

/// Reads the text's lines into records; a refusal writes nothing.
pub fn read_journal(text: &[u8], events: &mut [u8]) -> Reading {
    if text.len() > limit::TEXT_BYTES {
        return refused(refusal::TEXT_LONG, 0);
    }
    let room = (events.len() / size::EVENT).min(limit::EVENTS);
    let mut records: Vec<Event> = Vec::with_capacity(room.min(text.len() / SHORTEST_LINE_BYTES));
    let mut rest = text;
    while !rest.is_empty() {
        let line_number = records.len() + 1;
        let (event, after) = match read_line(rest) {
            Ok(read) => read,
            Err(number) => return refused(number, line_number),
        };
        if records.len() == room {
            return refused(refusal::LINE_ROOM, line_number);
        }
        records.push(event);
        rest = after;
    }
    for (area, record) in events.chunks_exact_mut(size::EVENT).zip(&records) {
        area.copy_from_slice(record);
    }
    Reading {
        refusal: u32::from(refusal::NOTHING),
        line: 0,
        count: records.len() as u32,
    }
}

fn refused(number: u8, line: usize) -> Reading {
    Reading {
        refusal: u32::from(number),
        line: line as u32,
        count: 0,
    }
}

/// The event of the text's first line and what follows the line, or the refusal.
fn read_line(text: &[u8]) -> Result<(Event, &[u8]), u8> {
    let window = &text[..text.len().min(limit::LINE_BYTES)];
    let (line, _) = split_at_first(window, b'\n').ok_or(refusal::LINE_LONG)?;
    let (number, fields) = split_at_first(line, b' ').ok_or(refusal::LINE_SEAT)?;
    let seat = seat_number(number).ok_or(refusal::LINE_SEAT)?;
    let (word, name) = split_at_first(fields, b' ').ok_or(refusal::LINE_WAY)?;
    let way = way_word(word).ok_or(refusal::LINE_WAY)?;
    let message = message_name(name).ok_or(refusal::LINE_NAME)?;
    let [low, high] = seat.to_le_bytes();
    Ok(([low, high, way, message], &text[line.len() + 1..]))
}

/// What stands before and after the first such byte.
fn split_at_first(text: &[u8], byte: u8) -> Option<(&[u8], &[u8])> {
    let at = text.iter().position(|&b| b == byte)?;
    Some((&text[..at], &text[at + 1..]))
}

fn seat_number(digits: &[u8]) -> Option<u16> {
    if digits.is_empty() || digits.len() > 5 || (digits[0] == b'0' && digits.len() > 1) {
        return None;
    }
    let mut number: u32 = 0;
    for &digit in digits {
        if !digit.is_ascii_digit() {
            return None;
        }
        number = 10 * number + u32::from(digit - b'0');
    }
    u16::try_from(number).ok()
}

fn way_word(word: &[u8]) -> Option<u8> {
    match word {
        b"got" => Some(way::RECEIVED),
        b"sent" => Some(way::SENT),
        _ => None,
    }
}

fn message_name(name: &[u8]) -> Option<u8> {
    NAMES
        .iter()
        .find(|(spelled, _)| *spelled == name)
        .map(|&(_, message)| message)
}
