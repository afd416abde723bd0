//! A run over an event list: one answer for each event.

use crate::book::{check_book, parts, Parts};
use crate::numbers::{action, direction, kind, limit, message, refusal, role, size, way};
use crate::tables::{effect, moves, Effect};

/// Refusal, state after, action, reply.
pub type Answer = [u8; size::ANSWER];

/// Works the events over the book and writes their answers; 0, or the refusal.
pub fn run(book: &mut [u8], events: &[u8], answers: &mut [u8]) -> u32 {
    let book_refusal = check_book(book);
    if book_refusal != 0 {
        return book_refusal;
    }
    if !events.len().is_multiple_of(size::EVENT) || events.len() / size::EVENT > limit::EVENTS {
        return u32::from(refusal::EVENT_LIST);
    }
    if answers.len() < events.len() {
        return u32::from(refusal::ANSWER_AREA);
    }
    let mut parts = parts(book);
    let areas = answers.chunks_exact_mut(size::ANSWER);
    for (event, area) in events.chunks_exact(size::EVENT).zip(areas) {
        area.copy_from_slice(&work_event(&mut parts, event));
    }
    u32::from(refusal::NOTHING)
}

/// Works one event over a good book.
pub fn work_event(parts: &mut Parts, event: &[u8]) -> Answer {
    let seat_number = usize::from(u16::from_le_bytes([event[0], event[1]]));
    let (way, message) = (event[2], event[3]);
    let Some(seat) = parts.seats.chunks_exact_mut(size::SEAT).nth(seat_number) else {
        return [refusal::NO_SEAT, 0, action::NONE, 0];
    };
    let (role, table, state) = (seat[1], seat[2], seat[3]);
    let refused = |number| [number, state, action::NONE, 0];
    if way > way::SENT || !(message::CANCEL..=message::COMPENSATED).contains(&message) {
        return refused(refusal::EVENT);
    }
    if !moves(role, way, message) {
        return refused(refusal::WAY);
    }
    let Some(effect) = effect(role, table, state, way, message) else {
        return refused(refusal::INVALID_STATE);
    };
    let at = size::ACTIVITY * usize::from(seat[0]);
    let activity = &mut parts.activities[at..at + size::ACTIVITY];
    if role == role::COORDINATOR && !takes_outcome(activity, way, message) {
        return refused(refusal::OUTCOME);
    }
    let answer = answer(effect, state);
    seat[3] = answer[1];
    answer
}

/// Sets an atomic activity's direction by a coordinator's legal Close or
/// Compensate; false, and nothing set, where that clashes.
fn takes_outcome(activity: &mut [u8], way: u8, message: u8) -> bool {
    let outcome = match (way, message) {
        (way::SENT, message::CLOSE) => direction::CLOSE,
        (way::SENT, message::COMPENSATE) => direction::COMPENSATE,
        _ => return true,
    };
    if activity[0] != kind::ATOMIC {
        return true;
    }
    if activity[1] == direction::NONE {
        activity[1] = outcome;
    }
    activity[1] == outcome
}

fn answer(effect: Effect, state: u8) -> Answer {
    match effect {
        Effect::Move(to) => [refusal::NOTHING, to, action::NONE, 0],
        Effect::Forget(to) => [refusal::NOTHING, to, action::FORGET, 0],
        Effect::Ignore => [refusal::NOTHING, state, action::IGNORE, 0],
        Effect::Reply(reply) => [refusal::NOTHING, state, action::REPLY, reply],
    }
}
