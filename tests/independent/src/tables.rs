//! What each message does to a seat, in the order of the outline's tables.

use crate::numbers::message::*;
use crate::numbers::{role, state, table, way};

/// What a legal event does.
#[derive(Clone, Copy, Debug, PartialEq, Eq)]
pub enum Effect {
    Move(u8),
    Forget(u8),
    Ignore,
    Reply(u8),
}

use Effect::{Forget, Ignore, Move, Reply};

/// Whether a seat of this role and table may stand in this state.
pub fn has_state(role: u8, table: u8, state: u8) -> bool {
    match state {
        state::CANCELING_COMPLETING => role == role::COORDINATOR,
        state::FIRST..=state::ENDED => true,
        state::ENDED_FAILED..=state::LAST => table == table::SPLIT,
        _ => false,
    }
}

pub fn is_ended(state: u8) -> bool {
    (state::ENDED..=state::LAST).contains(&state)
}

/// Whether a seat of this role moves this message this way.
pub fn moves(role: u8, way: u8, message: u8) -> bool {
    let from_coordinator = (CANCEL..=NOT_COMPLETED).contains(&message);
    let at_sender = from_coordinator == (role == role::COORDINATOR);
    at_sender == (way == way::SENT)
}

/// What the message does to a seat in that state; `None` is Invalid State. The
/// role must be one that moves the message that way.
pub fn effect(role: u8, table: u8, state: u8, way: u8, message: u8) -> Option<Effect> {
    if !has_state(role, table, state) {
        return None;
    }
    match (role, way) {
        (role::COORDINATOR, way::RECEIVED) => coordinator_receives(table, state, message),
        (role::COORDINATOR, _) => sends(state, coordinator_sends(table, state, message)?),
        (_, way::RECEIVED) => participant_receives(table, state, message),
        _ => sends(state, participant_sends(table, state, message)?),
    }
}

/// The ended state under this table of what the split one calls `split`.
fn ended_as(table: u8, split: u8) -> u8 {
    if table == table::PLAIN {
        state::ENDED
    } else {
        split
    }
}

fn sends(from: u8, to: u8) -> Option<Effect> {
    if is_ended(to) && !is_ended(from) {
        Some(Forget(to))
    } else {
        Some(Move(to))
    }
}

/// At an ended seat: the reply of the end that `split` names, else ignored.
fn after_end(table: u8, state: u8, split: u8, reply: u8) -> Option<Effect> {
    if !is_ended(state) {
        None
    } else if state == ended_as(table, split) {
        Some(Reply(reply))
    } else {
        Some(Ignore)
    }
}

/// A message that ends the seat from one of `from`, and is ignored once it has.
fn ends(state: u8, from: &[u8]) -> Option<Effect> {
    if from.contains(&state) {
        Some(Forget(state::ENDED))
    } else if is_ended(state) {
        Some(Ignore)
    } else {
        None
    }
}

fn coordinator_receives(table: u8, state: u8, message: u8) -> Option<Effect> {
    match message {
        EXIT => match state {
            state::ACTIVE..=state::COMPLETING => Some(Move(state::EXITING)),
            state::EXITING => Some(Ignore),
            _ => after_end(table, state, state::ENDED_EXITED, EXITED),
        },
        COMPLETED => match state {
            state::CANCELING_COMPLETING | state::COMPLETING => Some(Move(state::COMPLETED)),
            state::COMPLETED | state::FAILING_COMPENSATING => Some(Ignore),
            state::CLOSING => Some(Reply(CLOSE)),
            state::COMPENSATING => Some(Reply(COMPENSATE)),
            _ => is_ended(state).then_some(Ignore),
        },
        FAIL => match state {
            state::ACTIVE..=state::COMPLETING => Some(Move(state::FAILING)),
            state::COMPENSATING => Some(Move(state::FAILING_COMPENSATING)),
            state::FAILING | state::FAILING_COMPENSATING => Some(Ignore),
            _ => after_end(table, state, state::ENDED_FAILED, FAILED),
        },
        CANNOT_COMPLETE => match state {
            state::ACTIVE..=state::COMPLETING => Some(Move(state::NOT_COMPLETING)),
            state::NOT_COMPLETING => Some(Ignore),
            _ => after_end(table, state, state::ENDED_NOT_COMPLETED, NOT_COMPLETED),
        },
        CANCELED => ends(state, &[state::CANCELING, state::CANCELING_COMPLETING]),
        CLOSED => ends(state, &[state::CLOSING]),
        COMPENSATED => ends(state, &[state::COMPENSATING]),
        _ => None,
    }
}

/// The state that a coordinator's send leads to.
fn coordinator_sends(table: u8, state: u8, message: u8) -> Option<u8> {
    let end = |from: &[u8], split: u8| {
        let to = ended_as(table, split);
        (from.contains(&state) || state == to).then_some(to)
    };
    match (message, state) {
        (CANCEL, state::ACTIVE | state::CANCELING) => Some(state::CANCELING),
        (CANCEL, state::CANCELING_COMPLETING | state::COMPLETING) => {
            Some(state::CANCELING_COMPLETING)
        }
        (COMPLETE, state::ACTIVE | state::COMPLETING) => Some(state::COMPLETING),
        (CLOSE, state::COMPLETED | state::CLOSING) => Some(state::CLOSING),
        (COMPENSATE, state::COMPLETED | state::COMPENSATING) => Some(state::COMPENSATING),
        (FAILED, _) => end(
            &[state::FAILING, state::FAILING_COMPENSATING],
            state::ENDED_FAILED,
        ),
        (EXITED, _) => end(&[state::EXITING], state::ENDED_EXITED),
        (NOT_COMPLETED, _) => end(&[state::NOT_COMPLETING], state::ENDED_NOT_COMPLETED),
        _ => None,
    }
}

fn participant_receives(table: u8, state: u8, message: u8) -> Option<Effect> {
    match message {
        CANCEL => match state {
            state::ACTIVE | state::COMPLETING => Some(Move(state::CANCELING)),
            state::CANCELING
            | state::CLOSING
            | state::COMPENSATING
            | state::FAILING_COMPENSATING => Some(Ignore),
            _ => said_before(state)
                .or_else(|| after_end(table, state, state::ENDED_CANCELED, CANCELED)),
        },
        COMPLETE => match state {
            state::ACTIVE => Some(Move(state::COMPLETING)),
            state::CANCELING
            | state::COMPLETING
            | state::CLOSING
            | state::COMPENSATING
            | state::FAILING_COMPENSATING => Some(Ignore),
            state::ENDED if table == table::SPLIT => Some(Ignore),
            state::ENDED..=state::LAST => Some(Reply(FAIL)),
            _ => said_before(state),
        },
        CLOSE => match state {
            state::COMPLETED => Some(Move(state::CLOSING)),
            state::CLOSING => Some(Ignore),
            _ => after_end(table, state, state::ENDED_CLOSED, CLOSED),
        },
        COMPENSATE => match state {
            state::COMPLETED => Some(Move(state::COMPENSATING)),
            state::COMPENSATING => Some(Ignore),
            state::FAILING_COMPENSATING => Some(Reply(FAIL)),
            _ => after_end(table, state, state::ENDED_COMPENSATED, COMPENSATED),
        },
        FAILED => ends(state, &[state::FAILING, state::FAILING_COMPENSATING]),
        EXITED => ends(state, &[state::EXITING]),
        NOT_COMPLETED => ends(state, &[state::NOT_COMPLETING]),
        _ => None,
    }
}

/// A participant that already told its news tells it again.
fn said_before(state: u8) -> Option<Effect> {
    match state {
        state::COMPLETED => Some(Reply(COMPLETED)),
        state::FAILING => Some(Reply(FAIL)),
        state::NOT_COMPLETING => Some(Reply(CANNOT_COMPLETE)),
        state::EXITING => Some(Reply(EXIT)),
        _ => None,
    }
}

/// The state that a participant's send leads to.
fn participant_sends(table: u8, state: u8, message: u8) -> Option<u8> {
    let end = |from: u8, split: u8| {
        let to = ended_as(table, split);
        (state == from || state == to).then_some(to)
    };
    match (message, state) {
        (EXIT, state::ACTIVE | state::COMPLETING | state::EXITING) => Some(state::EXITING),
        (COMPLETED, state::COMPLETING | state::COMPLETED) => Some(state::COMPLETED),
        (FAIL, state::ACTIVE | state::CANCELING | state::COMPLETING | state::FAILING) => {
            Some(state::FAILING)
        }
        (FAIL, state::COMPENSATING | state::FAILING_COMPENSATING) => {
            Some(state::FAILING_COMPENSATING)
        }
        (CANNOT_COMPLETE, state::ACTIVE | state::COMPLETING | state::NOT_COMPLETING) => {
            Some(state::NOT_COMPLETING)
        }
        (CANCELED, _) => end(state::CANCELING, state::ENDED_CANCELED),
        (CLOSED, _) => end(state::CLOSING, state::ENDED_CLOSED),
        (COMPENSATED, _) => end(state::COMPENSATING, state::ENDED_COMPENSATED),
        _ => None,
    }
}
