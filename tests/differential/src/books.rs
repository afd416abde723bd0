//! Made-up books, good and damaged.

use crate::random::Random;
use independent::numbers::{direction, kind, limit, role, size, state, table};
use independent::tables::has_state;

#[derive(Clone, Copy)]
pub struct Counts {
    pub activities: usize,
    pub seats: usize,
}

/// Mostly small, at times full.
pub fn counts(random: &mut Random) -> Counts {
    let (activities, seats) = match random.below(1000) {
        0 => (limit::ACTIVITIES, limit::SEATS),
        1 => (
            random.within(1, limit::ACTIVITIES),
            random.within(0, limit::SEATS),
        ),
        6..=79 => (random.within(1, 40), random.within(0, 120)),
        80..=99 => (0, 0),
        _ => (random.within(1, 4), random.within(0, 8)),
    };
    Counts { activities, seats }
}

/// A good book of that size; seats need an activity.
pub fn good_book(counts: Counts, random: &mut Random) -> Vec<u8> {
    let mut book = header(counts);
    for _ in 0..counts.activities {
        let activity = match random.below(4) {
            0 => [kind::MIXED, direction::NONE],
            _ => [kind::ATOMIC, random.pick(&DIRECTIONS)],
        };
        book.extend(activity);
    }
    for _ in 0..counts.seats {
        let activity = random.below(counts.activities);
        let at = size::HEADER + size::ACTIVITY * activity;
        let seat = good_seat(book[at], book[at + 1], random);
        book.push(activity as u8);
        book.extend(seat);
    }
    book
}

const DIRECTIONS: [u8; 3] = [direction::NONE, direction::CLOSE, direction::COMPENSATE];

fn header(counts: Counts) -> Vec<u8> {
    let seats_at = size::HEADER + size::ACTIVITY * counts.activities;
    let numbers = [counts.activities, counts.seats, size::HEADER, seats_at];
    numbers
        .iter()
        .flat_map(|&number| (number as u16).to_le_bytes())
        .collect()
}

/// Role, table and state of a seat that suits its activity.
fn good_seat(kind: u8, direction: u8, random: &mut Random) -> [u8; 3] {
    loop {
        let role = random.pick(&[role::COORDINATOR, role::PARTICIPANT]);
        let table = random.pick(&[table::PLAIN, table::SPLIT]);
        let state = random.within(usize::from(state::FIRST), usize::from(state::LAST)) as u8;
        let free = role != role::COORDINATOR || kind == kind::MIXED;
        let suits = free || needed_direction(state).is_none_or(|needed| needed == direction);
        if suits && has_state(role, table, state) {
            return [role, table, state];
        }
    }
}

fn needed_direction(state: u8) -> Option<u8> {
    match state {
        state::CLOSING => Some(direction::CLOSE),
        state::COMPENSATING | state::FAILING_COMPENSATING => Some(direction::COMPENSATE),
        _ => None,
    }
}

/// Does one thing to a good or already damaged book that mostly makes it worse.
pub fn damage(book: &mut Vec<u8>, random: &mut Random) {
    match random.below(10) {
        0 => book.truncate(random.below(size::HEADER + 1)),
        1 => set_header_number(book, random),
        2 => change_length(book, random),
        3 => over_the_limit(book, random),
        4 => change_activity(book, random),
        5 | 6 => change_seat(book, random),
        7 => turn_against_direction(book, random),
        8 => flip_bit(book, random),
        _ => *book = noise(random),
    }
}

fn set_header_number(book: &mut [u8], random: &mut Random) {
    if book.len() < size::HEADER {
        return;
    }
    let at = 2 * random.below(4);
    let number = u16::from_le_bytes([book[at], book[at + 1]]);
    let changed = match random.below(4) {
        0 => number.wrapping_add(1),
        1 => number.wrapping_sub(1),
        2 => random.pick(&[0, 8, 10, 255, 256, 257, 4095, 4096, 4097, u16::MAX]),
        _ => random.number() as u16,
    };
    book[at..at + 2].copy_from_slice(&changed.to_le_bytes());
}

fn change_length(book: &mut Vec<u8>, random: &mut Random) {
    let length = match random.below(4) {
        0 => book.len() + 1,
        1 => book.len().saturating_sub(1),
        2 => random.below(book.len() + 1),
        _ => book.len() + random.within(1, 40),
    };
    book.resize(length, random.byte());
}

/// A book with one activity or seat too many and all else as it should be.
fn over_the_limit(book: &mut Vec<u8>, random: &mut Random) {
    if !random.percent(5) {
        return flip_bit(book, random);
    }
    let mut counts = Counts {
        activities: random.within(1, 3),
        seats: limit::SEATS + 1,
    };
    if random.percent(50) {
        counts = Counts {
            activities: limit::ACTIVITIES + 1,
            seats: random.below(4),
        };
    }
    *book = good_book(counts, random);
}

fn activity_count(book: &[u8]) -> usize {
    let counted = book.first().map_or(0, |&low| usize::from(low));
    let room = book.len().saturating_sub(size::HEADER) / size::ACTIVITY;
    counted.min(room)
}

fn change_activity(book: &mut [u8], random: &mut Random) {
    let count = activity_count(book);
    if count == 0 {
        return;
    }
    let at = size::HEADER + size::ACTIVITY * random.below(count);
    match random.below(4) {
        0 => book[at] = random.pick(&[0, 3, 4, 255]),
        1 => book[at + 1] = random.pick(&[3, 4, 255]),
        2 => {
            book[at] = kind::MIXED;
            book[at + 1] = random.pick(&[direction::CLOSE, direction::COMPENSATE]);
        }
        _ => book[at + random.below(size::ACTIVITY)] = random.byte(),
    }
}

/// Where a seat of the book stands, if it has one.
fn some_seat(book: &[u8], random: &mut Random) -> Option<usize> {
    let seats_at = size::HEADER + size::ACTIVITY * activity_count(book);
    let count = book.len().saturating_sub(seats_at) / size::SEAT;
    (count > 0).then(|| seats_at + size::SEAT * random.below(count))
}

fn change_seat(book: &mut [u8], random: &mut Random) {
    let Some(at) = some_seat(book, random) else {
        return;
    };
    let seat = &mut book[at..at + size::SEAT];
    match random.below(8) {
        0 => seat[0] = seat[0].wrapping_add(random.within(1, 4) as u8),
        1 => seat[0] = random.byte(),
        2 => seat[1] = random.pick(&[0, 3, 255]),
        3 => seat[2] = random.pick(&[0, 3, 255]),
        4 => seat[3] = random.pick(&[0, 16, 17, 128, 255]),
        5 => seat[2..4].copy_from_slice(&[table::PLAIN, random.within(12, 15) as u8]),
        6 => {
            seat[1] = role::PARTICIPANT;
            seat[3] = random.within(2, 4) as u8;
        }
        _ => seat[random.below(size::SEAT)] = random.byte(),
    }
}

/// Puts a seat where its activity must have a direction, and shakes that.
fn turn_against_direction(book: &mut [u8], random: &mut Random) {
    let Some(at) = some_seat(book, random) else {
        return;
    };
    let states = [
        state::CLOSING,
        state::COMPENSATING,
        state::FAILING_COMPENSATING,
    ];
    book[at + 1] = role::COORDINATOR;
    book[at + 3] = random.pick(&states);
    let activity_at = size::HEADER + size::ACTIVITY * usize::from(book[at]);
    if random.percent(70) && activity_at + 1 < book.len() {
        book[activity_at] = kind::ATOMIC;
        book[activity_at + 1] = random.pick(&DIRECTIONS);
    }
}

fn flip_bit(book: &mut [u8], random: &mut Random) {
    if !book.is_empty() {
        let at = random.below(book.len());
        book[at] ^= 1 << random.below(8);
    }
}

/// Bytes that may begin like a book.
fn noise(random: &mut Random) -> Vec<u8> {
    let counts = Counts {
        activities: random.below(6),
        seats: random.below(6),
    };
    let mut book = if random.percent(60) {
        header(counts)
    } else {
        Vec::new()
    };
    let rest = match random.below(3) {
        0 => random.below(40),
        _ => size::ACTIVITY * counts.activities + size::SEAT * counts.seats,
    };
    let high = random.pick(&[2, 3, 16, 256]);
    book.extend((0..rest).map(|_| random.below(high) as u8));
    book
}
