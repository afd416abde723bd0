//! Made-up event lists over a book.

use crate::random::Random;
use independent::book::{parts, Parts};
use independent::check_book;
use independent::event::work_event;
use independent::numbers::{limit, message, role, size, way};
use independent::tables::effect;

pub type Event = [u8; size::EVENT];

/// How many events: mostly few, at times as many as there may be.
pub fn event_count(random: &mut Random) -> usize {
    match random.below(1000) {
        0..=1 => limit::EVENTS,
        2..=5 => random.within(0, limit::EVENTS),
        6..=60 => random.within(0, 200),
        _ => random.within(0, 12),
    }
}

/// A list of events, in one of several manners.
pub fn event_list(book: &[u8], count: usize, random: &mut Random) -> Vec<u8> {
    if random.percent(10) {
        return random.bytes(size::EVENT * count);
    }
    if check_book(book) == 0 && random.percent(70) {
        let legal = random.pick(&[60, 90, 98]);
        return walk(book, count, legal, random);
    }
    let seat_count = seat_count(book);
    (0..count)
        .flat_map(|_| plausible_event(seat_count, random))
        .collect()
}

fn seat_count(book: &[u8]) -> usize {
    match book {
        [_, _, low, high, ..] => usize::from(u16::from_le_bytes([*low, *high])),
        _ => 0,
    }
}

/// Any message by any seat, or nearly one.
fn plausible_event(seat_count: usize, random: &mut Random) -> Event {
    let number = match random.below(20) {
        0 => random.number() as u16,
        1 => seat_count as u16,
        _ => random.below(seat_count + 1) as u16,
    };
    let way = if random.percent(97) {
        random.below(2) as u8
    } else {
        random.byte()
    };
    let message = if random.percent(97) {
        random.within(0, 15) as u8
    } else {
        random.byte()
    };
    event(number, way, message)
}

pub fn event(seat: u16, way: u8, message: u8) -> Event {
    let [low, high] = seat.to_le_bytes();
    [low, high, way, message]
}

/// A walk over a good book in which about that many percent of the events are
/// legal where they stand.
pub fn walk(book: &[u8], count: usize, legal: usize, random: &mut Random) -> Vec<u8> {
    let mut ahead = book.to_vec();
    let mut parts = parts(&mut ahead);
    let mut events = Vec::with_capacity(size::EVENT * count);
    for _ in 0..count {
        let seat_count = parts.seats.len() / size::SEAT;
        let event = if seat_count > 0 && random.percent(legal) {
            legal_event(&parts, random)
        } else {
            plausible_event(seat_count, random)
        };
        work_event(&mut parts, &event);
        events.extend(event);
    }
    events
}

/// An event that the tables allow, if one was met in a few tries.
fn legal_event(parts: &Parts, random: &mut Random) -> Event {
    let number = random.below(parts.seats.len() / size::SEAT);
    let seat = &parts.seats[size::SEAT * number..][..size::SEAT];
    let (role, table, state) = (seat[1], seat[2], seat[3]);
    let mut chosen = (way::RECEIVED, message::CANCEL);
    for _ in 0..12 {
        chosen = message_of(role, random);
        if effect(role, table, state, chosen.0, chosen.1).is_some() {
            break;
        }
    }
    event(number as u16, chosen.0, chosen.1)
}

/// A way and a message that go together at a seat of that role.
fn message_of(role: u8, random: &mut Random) -> (u8, u8) {
    let way = random.below(2) as u8;
    let by_coordinator = (way == way::SENT) == (role == role::COORDINATOR);
    let first = if by_coordinator {
        message::CANCEL
    } else {
        message::EXIT
    };
    (way, first + random.below(7) as u8)
}
