//! Engines wrong in how they treat one event.

use crate::lent::Lent;
use independent::book::{parts, Parts};
use independent::event::{work_event, Answer};
use independent::numbers::{action, direction, kind, message, refusal, role, size, state, way};
use independent::tables::is_ended;

/// An event just worked rightly, with what the seat was before.
struct Worked<'a, 'b> {
    event: &'a [u8],
    seat_before: Option<[u8; size::SEAT]>,
    answer: &'a mut Answer,
    parts: &'a mut Parts<'b>,
}

impl Worked<'_, '_> {
    fn seat_at(&self) -> usize {
        size::SEAT * usize::from(u16::from_le_bytes([self.event[0], self.event[1]]))
    }

    fn leave_in(&mut self, state: u8) {
        let at = self.seat_at();
        self.parts.seats[at + 3] = state;
        self.answer[1] = state;
    }

    fn is_by(&self, role: u8, way: u8) -> bool {
        self.event[2] == way && self.seat_before.is_some_and(|seat| seat[1] == role)
    }

    /// The direction that the event's message asks, if it asks one.
    fn outcome(&self) -> Option<u8> {
        match self.event[3] {
            message::CLOSE => Some(direction::CLOSE),
            message::COMPENSATE => Some(direction::COMPENSATE),
            _ => None,
        }
    }

    /// Sets the direction of the seat's activity where it is of that kind.
    fn set_direction(&mut self, of: u8, direction: u8) {
        let Some(seat) = self.seat_before else {
            return;
        };
        let at = size::ACTIVITY * usize::from(seat[0]);
        if self.parts.activities[at] == of {
            self.parts.activities[at + 1] = direction;
        }
    }
}

/// A run in which each event is worked rightly and then spoiled.
fn spoiled(book: &mut Lent, events: &Lent, answers: &mut Lent, spoil: fn(&mut Worked)) -> u32 {
    let tried = independent::run(
        &mut book.bytes().to_vec(),
        events.bytes(),
        &mut answers.bytes().to_vec(),
    );
    if tried != 0 {
        return tried;
    }
    let mut parts = parts(book.bytes_mut());
    let areas = answers.bytes_mut().chunks_exact_mut(size::ANSWER);
    for (event, area) in events.bytes().chunks_exact(size::EVENT).zip(areas) {
        let at = size::SEAT * usize::from(u16::from_le_bytes([event[0], event[1]]));
        let seat = parts.seats.get(at..at + size::SEAT);
        let seat_before = seat.map(|seat| [seat[0], seat[1], seat[2], seat[3]]);
        let mut answer = work_event(&mut parts, event);
        spoil(&mut Worked {
            event,
            seat_before,
            answer: &mut answer,
            parts: &mut parts,
        });
        area.copy_from_slice(&answer);
    }
    u32::from(refusal::NOTHING)
}

pub fn invalid_outcome_sets_direction(
    book: &mut Lent,
    events: &mut Lent,
    answers: &mut Lent,
) -> u32 {
    spoiled(book, events, answers, |worked| {
        let invalid = worked.answer[0] == refusal::INVALID_STATE;
        if let (true, Some(direction)) = (invalid, worked.outcome()) {
            worked.set_direction(kind::ATOMIC, direction);
        }
    })
}

pub fn clashing_outcome_sets_direction(
    book: &mut Lent,
    events: &mut Lent,
    answers: &mut Lent,
) -> u32 {
    spoiled(book, events, answers, |worked| {
        let clashing = worked.answer[0] == refusal::OUTCOME;
        if let (true, Some(direction)) = (clashing, worked.outcome()) {
            worked.set_direction(kind::ATOMIC, direction);
        }
    })
}

pub fn mixed_takes_direction(book: &mut Lent, events: &mut Lent, answers: &mut Lent) -> u32 {
    spoiled(book, events, answers, |worked| {
        let sent = worked.answer[0] == 0 && worked.is_by(role::COORDINATOR, way::SENT);
        if let (true, Some(direction)) = (sent, worked.outcome()) {
            worked.set_direction(kind::MIXED, direction);
        }
    })
}

pub fn participant_sets_direction(book: &mut Lent, events: &mut Lent, answers: &mut Lent) -> u32 {
    spoiled(book, events, answers, |worked| {
        let got = worked.answer[0] == 0 && worked.is_by(role::PARTICIPANT, way::RECEIVED);
        if let (true, Some(direction)) = (got, worked.outcome()) {
            worked.set_direction(kind::ATOMIC, direction);
        }
    })
}

pub fn one_canceling_state(book: &mut Lent, events: &mut Lent, answers: &mut Lent) -> u32 {
    spoiled(book, events, answers, |worked| {
        let cancel = worked.event[3] == message::CANCEL;
        if cancel && worked.answer[1] == state::CANCELING_COMPLETING {
            worked.leave_in(state::CANCELING);
        }
    })
}

pub fn reply_moves(book: &mut Lent, events: &mut Lent, answers: &mut Lent) -> u32 {
    spoiled(book, events, answers, |worked| {
        if worked.answer[2] == action::REPLY {
            worked.leave_in(state::ENDED);
        }
    })
}

pub fn resend_forgets(book: &mut Lent, events: &mut Lent, answers: &mut Lent) -> u32 {
    spoiled(book, events, answers, |worked| {
        let legal = worked.answer[0] == 0 && worked.event[2] == way::SENT;
        if legal && is_ended(worked.answer[1]) {
            worked.answer[2] = action::FORGET;
        }
    })
}

pub fn refusal_loses_state(book: &mut Lent, events: &mut Lent, answers: &mut Lent) -> u32 {
    spoiled(book, events, answers, |worked| {
        if worked.answer[0] != 0 {
            worked.answer[1] = 0;
        }
    })
}

pub fn no_seat_has_state(book: &mut Lent, events: &mut Lent, answers: &mut Lent) -> u32 {
    spoiled(book, events, answers, |worked| {
        if worked.answer[0] == refusal::NO_SEAT {
            worked.answer[1] = state::ACTIVE;
        }
    })
}

pub fn message_judged_before_seat(book: &mut Lent, events: &mut Lent, answers: &mut Lent) -> u32 {
    spoiled(book, events, answers, |worked| {
        if worked.answer[0] == refusal::NO_SEAT && worked.event[3] == 0 {
            worked.answer[0] = refusal::EVENT;
        }
    })
}

pub fn state_judged_before_way(book: &mut Lent, events: &mut Lent, answers: &mut Lent) -> u32 {
    spoiled(book, events, answers, |worked| {
        if worked.answer[0] == refusal::WAY {
            worked.answer[0] = refusal::INVALID_STATE;
        }
    })
}
