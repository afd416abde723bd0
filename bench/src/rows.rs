//! The rows of the benchmark: names, and several pieces of work for each.

use crate::work::Work;
use differential::books::{good_book, Counts};
use differential::events::{event, walk, Event};
use differential::journals::good_journal;
use differential::random::Random;
use independent::book::{parts, Parts};
use independent::event::work_event;
use independent::numbers::{limit, refusal, size};

pub struct Row {
    pub name: &'static str,
    pub title: String,
    pub works: Vec<Work>,
}

/// Different books and lists for one row, so that no branch is learned by heart.
const VARIANTS: usize = 8;

/// Small work is done so many times between two looks at the clock.
const SMALL_COPIES: usize = 512;

const FULL: Counts = Counts {
    activities: limit::ACTIVITIES,
    seats: limit::SEATS,
};

/// Percent of the events that are legal in a list called mostly legal.
const MOSTLY: usize = 95;

const EXAMPLE_BOOK: [u8; 18] = [
    0x01, 0x00, 0x02, 0x00, 0x08, 0x00, 0x0A, 0x00, 0x01, 0x00, 0x00, 0x01, 0x02, 0x05, 0x00, 0x01,
    0x02, 0x05,
];
const EXAMPLE_JOURNAL: &str = "0 sent Close\n1 sent Compensate\n1 sent Close\n\
                               0 got Fail\n1 got Closed\n2 sent Close\n";

/// The rows that compare the engines.
pub fn rows() -> Vec<Row> {
    vec![
        varied(
            "full-run",
            "256 activities, 4096 seats, 4096 events",
            full_run,
        ),
        small("small-run", "2 seats, 6 events", || {
            Work::run(EXAMPLE_BOOK.to_vec(), example_events())
        }),
        varied(
            "check-only",
            "256 activities, 4096 seats, no events",
            |random| Work::run(good_book(FULL, random), Vec::new()),
        ),
        small("small-check", "2 seats, no events", || {
            Work::run(EXAMPLE_BOOK.to_vec(), Vec::new())
        }),
        varied(
            "all-refused",
            "as full-run, every event refused",
            all_refused,
        ),
        varied("full-journal", "lines up to 65536 bytes", |random| {
            Work::reading(full_journal(random))
        }),
        small("small-journal", "6 lines", || {
            Work::reading(EXAMPLE_JOURNAL.as_bytes().to_vec())
        }),
    ]
}

pub fn row(name: &str) -> Option<Row> {
    rows().into_iter().find(|row| row.name == name)
}

/// Seats double from row to row, with no events.
pub fn rows_by_seats() -> Vec<Row> {
    let row = |&seats: &usize| {
        doubling("seats", seats, "no events", |random| {
            let counts = Counts {
                activities: limit::ACTIVITIES,
                seats,
            };
            Work::run(good_book(counts, random), Vec::new())
        })
    };
    DOUBLING.iter().map(row).collect()
}

/// Events double from row to row, over a book of few seats.
pub fn rows_by_events() -> Vec<Row> {
    let row = |&count: &usize| {
        doubling("events", count, "over 64 seats", |random| {
            let book = good_book(
                Counts {
                    activities: 16,
                    seats: 64,
                },
                random,
            );
            let events = walk(&book, count, MOSTLY, random);
            Work::run(book, events)
        })
    };
    DOUBLING.iter().map(row).collect()
}

const DOUBLING: [usize; 4] = [512, 1024, 2048, 4096];

fn varied(name: &'static str, what: &str, work: impl Fn(&mut Random) -> Work) -> Row {
    variants(VARIANTS, name, what, work)
}

/// Of smaller work there are more variants: as much in all, for any size.
fn doubling(
    name: &'static str,
    size: usize,
    what: &str,
    work: impl Fn(&mut Random) -> Work,
) -> Row {
    let count = VARIANTS * DOUBLING[DOUBLING.len() - 1] / size;
    variants(count, name, &format!("{size}, {what}"), work)
}

fn variants(
    count: usize,
    name: &'static str,
    what: &str,
    work: impl Fn(&mut Random) -> Work,
) -> Row {
    let works = (0..count)
        .map(|number| work(&mut Random::new(1, number as u64)))
        .collect();
    Row {
        name,
        title: format!("{name}: {what}"),
        works,
    }
}

fn small(name: &'static str, what: &str, work: impl Fn() -> Work) -> Row {
    let works = (0..SMALL_COPIES).map(|_| work()).collect();
    Row {
        name,
        title: format!("{name}: {what}"),
        works,
    }
}

fn full_run(random: &mut Random) -> Work {
    let book = good_book(FULL, random);
    let events = walk(&book, limit::EVENTS, MOSTLY, random);
    Work::run(book, events)
}

fn example_events() -> Vec<u8> {
    let mut events = vec![0; size::EVENT * 6];
    independent::read_journal(EXAMPLE_JOURNAL.as_bytes(), &mut events);
    events
}

/// Lines up to the longest text there may be.
fn full_journal(random: &mut Random) -> Vec<u8> {
    let mut text = good_journal(1, random);
    loop {
        let line = good_journal(1, random);
        if text.len() + line.len() > limit::TEXT_BYTES {
            return text;
        }
        text.extend(line);
    }
}

/// A full list of which every event is refused, for any of the five reasons.
fn all_refused(random: &mut Random) -> Work {
    let book = good_book(FULL, random);
    let mut copy = book.clone();
    let mut parts = parts(&mut copy);
    let reasons = [
        refusal::NO_SEAT,
        refusal::EVENT,
        refusal::WAY,
        refusal::INVALID_STATE,
        refusal::OUTCOME,
    ];
    let mut events = Vec::new();
    while events.len() < size::EVENT * limit::EVENTS {
        events.extend(refused_event(&mut parts, random.pick(&reasons), random));
    }
    Work::run(book, events)
}

/// Tries events until one is refused for that reason.
fn refused_event(parts: &mut Parts, reason: u8, random: &mut Random) -> Event {
    loop {
        let past = if reason == refusal::NO_SEAT {
            limit::SEATS
        } else {
            0
        };
        let seat = past + random.below(limit::SEATS);
        let way = random.below(3) as u8;
        let tried = event(seat as u16, way, random.below(16) as u8);
        if refusal_of(parts, seat, tried) == reason {
            return tried;
        }
    }
}

/// The event's refusal; its seat and activity are put back as they were.
fn refusal_of(parts: &mut Parts, seat: usize, event: Event) -> u8 {
    let seat_at = size::SEAT * seat;
    let Some(&activity) = parts.seats.get(seat_at) else {
        return work_event(parts, &event)[0];
    };
    let activity_at = size::ACTIVITY * usize::from(activity);
    let (state, direction) = (parts.seats[seat_at + 3], parts.activities[activity_at + 1]);
    let answer = work_event(parts, &event);
    parts.seats[seat_at + 3] = state;
    parts.activities[activity_at + 1] = direction;
    answer[0]
}
