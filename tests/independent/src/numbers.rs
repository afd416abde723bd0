//! The outline's numbers, each named once.

pub mod message {
    pub const CANCEL: u8 = 1;
    pub const COMPLETE: u8 = 2;
    pub const CLOSE: u8 = 3;
    pub const COMPENSATE: u8 = 4;
    pub const FAILED: u8 = 5;
    pub const EXITED: u8 = 6;
    pub const NOT_COMPLETED: u8 = 7;
    pub const EXIT: u8 = 8;
    pub const COMPLETED: u8 = 9;
    pub const FAIL: u8 = 10;
    pub const CANNOT_COMPLETE: u8 = 11;
    pub const CANCELED: u8 = 12;
    pub const CLOSED: u8 = 13;
    pub const COMPENSATED: u8 = 14;
}

pub mod way {
    pub const RECEIVED: u8 = 0;
    pub const SENT: u8 = 1;
}

pub mod state {
    pub const ACTIVE: u8 = 1;
    pub const CANCELING: u8 = 2;
    pub const CANCELING_COMPLETING: u8 = 3;
    pub const COMPLETING: u8 = 4;
    pub const COMPLETED: u8 = 5;
    pub const CLOSING: u8 = 6;
    pub const COMPENSATING: u8 = 7;
    pub const FAILING: u8 = 8;
    pub const FAILING_COMPENSATING: u8 = 9;
    pub const NOT_COMPLETING: u8 = 10;
    pub const EXITING: u8 = 11;
    pub const ENDED: u8 = 12;

    // Under the split table, at a coordinator.
    pub const ENDED_FAILED: u8 = 13;
    pub const ENDED_EXITED: u8 = 14;
    pub const ENDED_NOT_COMPLETED: u8 = 15;

    // Under the split table, at a participant.
    pub const ENDED_CANCELED: u8 = 13;
    pub const ENDED_CLOSED: u8 = 14;
    pub const ENDED_COMPENSATED: u8 = 15;

    pub const FIRST: u8 = ACTIVE;
    pub const LAST: u8 = 15;
}

pub mod role {
    pub const COORDINATOR: u8 = 1;
    pub const PARTICIPANT: u8 = 2;
}

pub mod table {
    pub const PLAIN: u8 = 1;
    pub const SPLIT: u8 = 2;
}

pub mod kind {
    pub const ATOMIC: u8 = 1;
    pub const MIXED: u8 = 2;
}

pub mod direction {
    pub const NONE: u8 = 0;
    pub const CLOSE: u8 = 1;
    pub const COMPENSATE: u8 = 2;
}

pub mod action {
    pub const NONE: u8 = 0;
    pub const IGNORE: u8 = 1;
    pub const REPLY: u8 = 2;
    pub const FORGET: u8 = 3;
}

pub mod refusal {
    pub const NOTHING: u8 = 0;

    // A whole run.
    pub const BOOK_SHORT: u8 = 1;
    pub const LAYOUT: u8 = 2;
    pub const ACTIVITY: u8 = 3;
    pub const SEAT: u8 = 4;
    pub const SEAT_DIRECTION: u8 = 5;
    pub const EVENT_LIST: u8 = 6;
    pub const ANSWER_AREA: u8 = 7;

    // One event.
    pub const NO_SEAT: u8 = 11;
    pub const EVENT: u8 = 12;
    pub const WAY: u8 = 13;
    pub const INVALID_STATE: u8 = 14;
    pub const OUTCOME: u8 = 15;

    // A journal.
    pub const LINE_LONG: u8 = 21;
    pub const LINE_SEAT: u8 = 22;
    pub const LINE_WAY: u8 = 23;
    pub const LINE_NAME: u8 = 24;
    pub const LINE_ROOM: u8 = 25;
    pub const TEXT_LONG: u8 = 26;
}

pub mod limit {
    pub const SEATS: usize = 4096;
    pub const ACTIVITIES: usize = 256;
    pub const EVENTS: usize = 4096;
    pub const BOOK_BYTES: usize = 16904;
    pub const TEXT_BYTES: usize = 65536;
    pub const LINE_BYTES: usize = 26;
}

pub mod size {
    pub const HEADER: usize = 8;
    pub const ACTIVITY: usize = 2;
    pub const SEAT: usize = 4;
    pub const EVENT: usize = 4;
    pub const ANSWER: usize = 4;
}
