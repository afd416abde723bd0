//! Engines wrong in how they treat a whole run.

use super::right_run;
use crate::lent::Lent;
use independent::numbers::{action, limit, refusal, size};

pub fn always_refuses(_: &mut Lent, _: &mut Lent, _: &mut Lent) -> u32 {
    u32::from(refusal::LAYOUT)
}

pub fn always_ignores(book: &mut Lent, events: &mut Lent, answers: &mut Lent) -> u32 {
    let mut copy = book.clone();
    let returned = right_run(&mut copy, events, answers);
    if returned == 0 {
        let count = events.len() / size::EVENT;
        for answer in answers
            .bytes_mut()
            .chunks_exact_mut(size::ANSWER)
            .take(count)
        {
            answer.copy_from_slice(&[refusal::NOTHING, answer[1], action::IGNORE, 0]);
        }
    }
    returned
}

pub fn moves_nothing(book: &mut Lent, events: &mut Lent, answers: &mut Lent) -> u32 {
    right_run(&mut book.clone(), events, answers)
}

pub fn first_event_only(book: &mut Lent, events: &mut Lent, answers: &mut Lent) -> u32 {
    let refused = right_run(&mut book.clone(), events, &mut answers.clone());
    if refused != 0 {
        return refused;
    }
    let first = &events.bytes()[..events.len().min(size::EVENT)];
    independent::run(book.bytes_mut(), first, answers.bytes_mut())
}

pub fn answers_before_check(book: &mut Lent, events: &mut Lent, answers: &mut Lent) -> u32 {
    let returned = right_run(book, events, answers);
    if returned != 0 && answers.len() >= events.len() {
        let length = events.len();
        answers.bytes_mut()[..length].fill(0);
    }
    returned
}

pub fn list_judged_before_book(book: &mut Lent, events: &mut Lent, answers: &mut Lent) -> u32 {
    if !events.len().is_multiple_of(size::EVENT) {
        return u32::from(refusal::EVENT_LIST);
    }
    right_run(book, events, answers)
}

pub fn area_judged_before_list(book: &mut Lent, events: &mut Lent, answers: &mut Lent) -> u32 {
    let returned = right_run(book, events, answers);
    if returned == u32::from(refusal::EVENT_LIST) && answers.len() < events.len() {
        return u32::from(refusal::ANSWER_AREA);
    }
    returned
}

/// Finds a book's bad seat before its bad activity.
pub fn seats_judged_before_activities(
    book: &mut Lent,
    events: &mut Lent,
    answers: &mut Lent,
) -> u32 {
    let returned = right_run(book, events, answers);
    if returned != u32::from(refusal::ACTIVITY) {
        return returned;
    }
    let mut repaired = book.bytes().to_vec();
    let seats_at = usize::from(u16::from_le_bytes([repaired[6], repaired[7]]));
    for activity in repaired[size::HEADER..seats_at].chunks_exact_mut(size::ACTIVITY) {
        activity.copy_from_slice(&[1, 0]);
    }
    match independent::check_book(&repaired) {
        seat if seat == u32::from(refusal::SEAT) => seat,
        _ => returned,
    }
}

pub fn no_full_list(book: &mut Lent, events: &mut Lent, answers: &mut Lent) -> u32 {
    let full = events.len() == size::EVENT * limit::EVENTS;
    if full && independent::check_book(book.bytes()) == 0 {
        return u32::from(refusal::EVENT_LIST);
    }
    right_run(book, events, answers)
}

pub fn no_full_book(book: &mut Lent, events: &mut Lent, answers: &mut Lent) -> u32 {
    if book.len() == limit::BOOK_BYTES {
        return u32::from(refusal::LAYOUT);
    }
    right_run(book, events, answers)
}

/// Takes a book of 4,097 seats for a good one.
pub fn one_seat_too_many(book: &mut Lent, events: &mut Lent, answers: &mut Lent) -> u32 {
    let returned = right_run(book, events, answers);
    let seats = book
        .bytes()
        .get(2..4)
        .map_or(0, |two| u16::from_le_bytes([two[0], two[1]]));
    if returned == u32::from(refusal::LAYOUT) && usize::from(seats) == limit::SEATS + 1 {
        return u32::from(refusal::NOTHING);
    }
    returned
}

pub fn last_answer_bit(book: &mut Lent, events: &mut Lent, answers: &mut Lent) -> u32 {
    let returned = right_run(book, events, answers);
    if returned == 0 && !events.is_empty() {
        answers.bytes_mut()[events.len() - 1] ^= 1;
    }
    returned
}

pub fn last_of_full_list(book: &mut Lent, events: &mut Lent, answers: &mut Lent) -> u32 {
    let returned = right_run(book, events, answers);
    if returned == 0 && events.len() == size::EVENT * limit::EVENTS {
        answers.bytes_mut()[events.len() - 1] ^= 1;
    }
    returned
}

pub fn byte_past_answers(book: &mut Lent, events: &mut Lent, answers: &mut Lent) -> u32 {
    let returned = right_run(book, events, answers);
    if returned == 0 && answers.len() > events.len() {
        answers.bytes_mut()[events.len()] = 0;
    }
    returned
}

pub fn byte_past_answer_area(book: &mut Lent, events: &mut Lent, answers: &mut Lent) -> u32 {
    let returned = right_run(book, events, answers);
    *answers.byte_outside(true) = 0;
    returned
}

pub fn byte_before_book(book: &mut Lent, events: &mut Lent, answers: &mut Lent) -> u32 {
    let returned = right_run(book, events, answers);
    *book.byte_outside(false) = 0;
    returned
}

pub fn byte_past_book(book: &mut Lent, events: &mut Lent, answers: &mut Lent) -> u32 {
    let returned = right_run(book, events, answers);
    *book.byte_outside(true) = 0;
    returned
}

pub fn writes_events(book: &mut Lent, events: &mut Lent, answers: &mut Lent) -> u32 {
    let returned = right_run(book, events, answers);
    if let Some(byte) = events.bytes_mut().last_mut() {
        *byte = 0;
    }
    returned
}
