//! The outline's lot cases and its worked example.

use independent::numbers::{action, message, refusal, role, state, table, way};
use independent::{check_book, read_journal, run, Reading};

/// A book of one mixed activity with one seat.
fn one_seat(role: u8, table: u8, state: u8) -> Vec<u8> {
    vec![1, 0, 1, 0, 8, 0, 10, 0, 2, 0, 0, role, table, state]
}

/// The answer of a seat to one received message, and the state it is left in.
fn got(role: u8, table: u8, state: u8, message: u8) -> ([u8; 4], u8) {
    let mut book = one_seat(role, table, state);
    let mut answer = [0xEE; 4];
    assert_eq!(
        run(&mut book, &[0, 0, way::RECEIVED, message], &mut answer),
        0
    );
    (answer, *book.last().unwrap())
}

fn moved(to: u8) -> ([u8; 4], u8) {
    ([0, to, action::NONE, 0], to)
}

fn replied(state: u8, reply: u8) -> ([u8; 4], u8) {
    ([0, state, action::REPLY, reply], state)
}

fn ignored(state: u8) -> ([u8; 4], u8) {
    ([0, state, action::IGNORE, 0], state)
}

#[test]
fn coordinator_under_the_split_table() {
    let got = |state, message| got(role::COORDINATOR, table::SPLIT, state, message);
    assert_eq!(got(3, message::COMPLETED), moved(5));
    assert_eq!(
        got(2, message::COMPLETED),
        ([refusal::INVALID_STATE, 2, 0, 0], 2)
    );
    assert_eq!(got(14, message::EXIT), replied(14, 6));
    assert_eq!(got(12, message::EXIT), ignored(12));
}

#[test]
fn participant() {
    let got = |table, state, message| got(role::PARTICIPANT, table, state, message);
    assert_eq!(got(table::SPLIT, 14, message::COMPLETE), replied(14, 10));
    assert_eq!(got(table::PLAIN, 12, message::CLOSE), replied(12, 13));
    assert_eq!(got(table::SPLIT, 12, message::CLOSE), ignored(12));
    assert_eq!(got(table::PLAIN, 9, message::COMPENSATE), replied(9, 10));
    assert_eq!(got(table::SPLIT, 9, message::COMPENSATE), replied(9, 10));
}

fn full_book(activities: u16, seats: u16) -> Vec<u8> {
    let mut book = Vec::new();
    for number in [activities, seats, 8, 8 + 2 * activities] {
        book.extend(number.to_le_bytes());
    }
    book.extend([1, 0].repeat(usize::from(activities)));
    book.extend([0, role::COORDINATOR, table::PLAIN, state::ACTIVE].repeat(usize::from(seats)));
    book
}

#[test]
fn books() {
    assert_eq!(check_book(&full_book(256, 4096)), 0);
    assert_eq!(full_book(256, 4096).len(), 16_904);
    assert_eq!(check_book(&full_book(1, 4096)), 0);
    assert_eq!(check_book(&full_book(1, 4097)), 2);
    assert_eq!(check_book(&full_book(257, 1)), 2);
    assert_eq!(check_book(&full_book(0, 0)), 0);
    assert_eq!(check_book(&full_book(0, 1)), 4);
}

#[test]
fn lists() {
    let event = [0, 0, way::SENT, message::CANCEL];
    let mut answers = vec![0; 4 * 4097];
    assert_eq!(
        run(&mut full_book(1, 1), &event.repeat(4096), &mut answers),
        0
    );
    assert_eq!(
        run(&mut full_book(1, 1), &event.repeat(4097), &mut answers),
        6
    );
}

#[test]
fn seat_numbers_of_lines() {
    let refused = Reading {
        refusal: 22,
        line: 1,
        count: 0,
    };
    assert_eq!(read_journal(b"007 got Exit\n", &mut [0; 4]), refused);
    assert_eq!(read_journal(b"65536 got Exit\n", &mut [0; 4]), refused);
    let read = Reading {
        refusal: 0,
        line: 0,
        count: 1,
    };
    assert_eq!(read_journal(b"65535 got Exit\n", &mut [0; 4]), read);
}

#[test]
fn worked_example() {
    let mut book = [
        0x01, 0x00, 0x02, 0x00, 0x08, 0x00, 0x0A, 0x00, 0x01, 0x00, 0x00, 0x01, 0x02, 0x05, 0x00,
        0x01, 0x02, 0x05,
    ];
    let journal = b"0 sent Close\n1 sent Compensate\n1 sent Close\n\
                    0 got Fail\n1 got Closed\n2 sent Close\n";
    let mut events = [0; 24];
    let reading = read_journal(journal, &mut events);
    assert_eq!(
        reading,
        Reading {
            refusal: 0,
            line: 0,
            count: 6
        }
    );
    assert_eq!(
        events,
        [0, 0, 1, 3, 1, 0, 1, 4, 1, 0, 1, 3, 0, 0, 0, 10, 1, 0, 0, 13, 2, 0, 1, 3]
    );
    let mut answers = [0xEE; 24];
    assert_eq!(run(&mut book, &events, &mut answers), 0);
    assert_eq!(
        answers,
        [0, 6, 0, 0, 15, 5, 0, 0, 0, 6, 0, 0, 14, 6, 0, 0, 0, 12, 3, 0, 11, 0, 0, 0]
    );
    assert_eq!(book[8..], [1, 1, 0, 1, 2, 6, 0, 1, 2, 12]);
}
