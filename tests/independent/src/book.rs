//! The book's bytes, and the rules that a good book keeps.

use crate::numbers::{direction, kind, limit, refusal, role, size, state, table};
use crate::tables::has_state;

/// A good book taken apart.
pub struct Parts<'a> {
    pub activities: &'a mut [u8],
    pub seats: &'a mut [u8],
}

/// Takes apart a book that `check_book` found good.
pub fn parts(book: &mut [u8]) -> Parts<'_> {
    let activity_count = number_at(book, 0);
    let (activities, seats) = book[size::HEADER..].split_at_mut(size::ACTIVITY * activity_count);
    Parts { activities, seats }
}

fn number_at(book: &[u8], at: usize) -> usize {
    usize::from(u16::from_le_bytes([book[at], book[at + 1]]))
}

/// 0 for a good book, else the first of refusals 1 to 5 that applies.
pub fn check_book(book: &[u8]) -> u32 {
    u32::from(book_refusal(book))
}

fn book_refusal(book: &[u8]) -> u8 {
    if book.len() < size::HEADER {
        return refusal::BOOK_SHORT;
    }
    if !has_layout(book) {
        return refusal::LAYOUT;
    }
    let activities_end = size::HEADER + size::ACTIVITY * number_at(book, 0);
    let activities = &book[size::HEADER..activities_end];
    let seats = &book[activities_end..];
    if !activities.chunks_exact(size::ACTIVITY).all(is_activity) {
        return refusal::ACTIVITY;
    }
    let activity_count = activities.len() / size::ACTIVITY;
    if !seats
        .chunks_exact(size::SEAT)
        .all(|seat| is_seat(seat, activity_count))
    {
        return refusal::SEAT;
    }
    if !seats
        .chunks_exact(size::SEAT)
        .all(|seat| follows_direction(seat, activities))
    {
        return refusal::SEAT_DIRECTION;
    }
    refusal::NOTHING
}

fn has_layout(book: &[u8]) -> bool {
    let activity_count = number_at(book, 0);
    let seat_count = number_at(book, 2);
    let seats_at = size::HEADER + size::ACTIVITY * activity_count;
    activity_count <= limit::ACTIVITIES
        && seat_count <= limit::SEATS
        && number_at(book, 4) == size::HEADER
        && number_at(book, 6) == seats_at
        && book.len() == seats_at + size::SEAT * seat_count
}

fn is_activity(activity: &[u8]) -> bool {
    match activity[0] {
        kind::ATOMIC => activity[1] <= direction::COMPENSATE,
        kind::MIXED => activity[1] == direction::NONE,
        _ => false,
    }
}

fn is_seat(seat: &[u8], activity_count: usize) -> bool {
    let (activity, role, table, state) = (seat[0], seat[1], seat[2], seat[3]);
    usize::from(activity) < activity_count
        && matches!(role, role::COORDINATOR | role::PARTICIPANT)
        && matches!(table, table::PLAIN | table::SPLIT)
        && has_state(role, table, state)
}

fn follows_direction(seat: &[u8], activities: &[u8]) -> bool {
    let at = size::ACTIVITY * usize::from(seat[0]);
    if seat[1] != role::COORDINATOR || activities[at] != kind::ATOMIC {
        return true;
    }
    match seat[3] {
        state::CLOSING => activities[at + 1] == direction::CLOSE,
        state::COMPENSATING | state::FAILING_COMPENSATING => {
            activities[at + 1] == direction::COMPENSATE
        }
        _ => true,
    }
}
