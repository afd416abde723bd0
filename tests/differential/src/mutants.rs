//! Wrong engines, each wrong in one way, that the harness must notice.

mod readers;
mod runs;
mod steps;

use crate::lent::Lent;
use crate::subjects::Subject;
use independent::Reading;

type Run = fn(&mut Lent, &mut Lent, &mut Lent) -> u32;
type Read = fn(&mut Lent, &mut Lent) -> Reading;

/// The independent implementation, save for what its name says.
pub struct Mutant {
    pub name: &'static str,
    run: Run,
    read: Read,
}

impl Subject for Mutant {
    fn run(&self, book: &mut Lent, events: &mut Lent, answers: &mut Lent) -> u32 {
        (self.run)(book, events, answers)
    }

    fn read_journal(&self, text: &mut Lent, events: &mut Lent) -> Reading {
        (self.read)(text, events)
    }
}

fn right_run(book: &mut Lent, events: &mut Lent, answers: &mut Lent) -> u32 {
    independent::run(book.bytes_mut(), events.bytes(), answers.bytes_mut())
}

fn right_read(text: &mut Lent, events: &mut Lent) -> Reading {
    independent::read_journal(text.bytes(), events.bytes_mut())
}

const fn wrong_run(name: &'static str, run: Run) -> Mutant {
    Mutant {
        name,
        run,
        read: right_read,
    }
}

const fn wrong_read(name: &'static str, read: Read) -> Mutant {
    Mutant {
        name,
        run: right_run,
        read,
    }
}

pub const MUTANTS: &[Mutant] = &[
    wrong_run("always-refuses", runs::always_refuses),
    wrong_run("always-ignores", runs::always_ignores),
    wrong_run("moves-nothing", runs::moves_nothing),
    wrong_run("first-event-only", runs::first_event_only),
    wrong_run("answers-before-check", runs::answers_before_check),
    wrong_run("list-judged-before-book", runs::list_judged_before_book),
    wrong_run("area-judged-before-list", runs::area_judged_before_list),
    wrong_run(
        "seats-judged-before-activities",
        runs::seats_judged_before_activities,
    ),
    wrong_run("no-full-list", runs::no_full_list),
    wrong_run("no-full-book", runs::no_full_book),
    wrong_run("one-seat-too-many", runs::one_seat_too_many),
    wrong_run("last-answer-bit", runs::last_answer_bit),
    wrong_run("last-of-full-list", runs::last_of_full_list),
    wrong_run("byte-past-answers", runs::byte_past_answers),
    wrong_run("byte-past-answer-area", runs::byte_past_answer_area),
    wrong_run("byte-before-book", runs::byte_before_book),
    wrong_run("byte-past-book", runs::byte_past_book),
    wrong_run("writes-events", runs::writes_events),
    wrong_run(
        "invalid-outcome-sets-direction",
        steps::invalid_outcome_sets_direction,
    ),
    wrong_run(
        "clashing-outcome-sets-direction",
        steps::clashing_outcome_sets_direction,
    ),
    wrong_run("mixed-takes-direction", steps::mixed_takes_direction),
    wrong_run(
        "participant-sets-direction",
        steps::participant_sets_direction,
    ),
    wrong_run("one-canceling-state", steps::one_canceling_state),
    wrong_run("reply-moves", steps::reply_moves),
    wrong_run("resend-forgets", steps::resend_forgets),
    wrong_run("refusal-loses-state", steps::refusal_loses_state),
    wrong_run("no-seat-has-state", steps::no_seat_has_state),
    wrong_run(
        "message-judged-before-seat",
        steps::message_judged_before_seat,
    ),
    wrong_run("state-judged-before-way", steps::state_judged_before_way),
    wrong_read("made-up-count", readers::made_up_count),
    wrong_read("line-from-zero", readers::line_from_zero),
    wrong_read("refusal-keeps-count", readers::refusal_keeps_count),
    wrong_read("refused-reading-writes", readers::refused_reading_writes),
    wrong_read("room-judged-first", readers::room_judged_first),
    wrong_read("one-event-too-many", readers::one_event_too_many),
    wrong_read("no-full-text", readers::no_full_text),
    wrong_read("leading-zeros", readers::leading_zeros),
    wrong_read("seat-wraps", readers::seat_wraps),
    wrong_read("carriage-returns", readers::carriage_returns),
    wrong_read("old-spelling", readers::old_spelling),
    wrong_read("last-line-open", readers::last_line_open),
    wrong_read("byte-past-records", readers::byte_past_records),
    wrong_read("byte-past-event-area", readers::byte_past_event_area),
    wrong_read("writes-text", readers::writes_text),
];
