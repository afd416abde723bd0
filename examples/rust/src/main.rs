//! Reads a journal of six lines, runs it over a book of one activity and two seats
//! and prints what each event came to, then the state of each seat.

mod lotend;

use std::process::ExitCode;

const SEAT_BYTES: usize = 4;
const EVENT_BYTES: usize = 4;
const EVENT_ROOM: usize = 16;

const BOOK: [u8; 18] = [
    0x01, 0x00, 0x02, 0x00, 0x08, 0x00, 0x0A, 0x00, 0x01, 0x00, 0x00, 0x01, 0x02, 0x05, 0x00, 0x01,
    0x02, 0x05,
];
const JOURNAL: &str = "0 sent Close\n1 sent Compensate\n1 sent Close\n\
                       0 got Fail\n1 got Closed\n2 sent Close\n";

fn main() -> ExitCode {
    let mut book = BOOK;
    let mut events = [0; EVENT_BYTES * EVENT_ROOM];
    let mut answers = [0; EVENT_BYTES * EVENT_ROOM];

    // The book is judged first: a run with no events does only that.
    let refusal = lotend::run(&mut book, &[], &mut []);
    if refusal != 0 {
        println!("refused {refusal}");
        return ExitCode::FAILURE;
    }
    let reading = lotend::read_journal(JOURNAL.as_bytes(), &mut events);
    if reading.refusal != 0 {
        println!("refused {} line {}", reading.refusal, reading.line);
        return ExitCode::FAILURE;
    }
    let events = &events[..EVENT_BYTES * reading.count as usize];
    // A good book and no more events than the reader gives: this can't be refused.
    lotend::run(&mut book, events, &mut answers);
    print_listing(&book, events, &answers);
    ExitCode::SUCCESS
}

fn number_at(bytes: &[u8]) -> usize {
    usize::from(u16::from_le_bytes([bytes[0], bytes[1]]))
}

fn print_listing(book: &[u8], events: &[u8], answers: &[u8]) {
    println!("book {} {}", number_at(book), number_at(&book[2..]));
    let answered = events
        .chunks_exact(EVENT_BYTES)
        .zip(answers.chunks_exact(EVENT_BYTES));
    for (number, (event, answer)) in (1..).zip(answered) {
        let (seat, way, message) = (number_at(event), event[2], event[3]);
        let (refusal, state, action, reply) = (answer[0], answer[1], answer[2], answer[3]);
        println!("{number} {seat} {way} {message} {refusal} {state} {action} {reply}");
    }
    let seats = &book[number_at(&book[6..])..];
    for (number, seat) in seats.chunks_exact(SEAT_BYTES).enumerate() {
        println!("seat {number} {}", seat[3]);
    }
}
