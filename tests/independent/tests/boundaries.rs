//! The order of refusals, what each leaves untouched, and the edges of a line.

use independent::{check_book, read_journal, run, Reading};

/// Two atomic activities, the second closing; a seat in each.
const BOOK: [u8; 20] = [2, 0, 2, 0, 8, 0, 12, 0, 1, 0, 1, 1, 0, 1, 1, 5, 1, 1, 2, 6];

fn refusal_with(changes: &[(usize, u8)]) -> u32 {
    let mut book = BOOK;
    for &(at, byte) in changes {
        book[at] = byte;
    }
    check_book(&book)
}

#[test]
fn each_book_refusal() {
    assert_eq!(check_book(&BOOK), 0);
    assert_eq!(check_book(&BOOK[..7]), 1);
    assert_eq!(check_book(&BOOK[..8]), 2);
    assert_eq!(check_book(&BOOK[..19]), 2);
    assert_eq!(refusal_with(&[(4, 9)]), 2);
    assert_eq!(refusal_with(&[(6, 14)]), 2);
    assert_eq!(refusal_with(&[(8, 0)]), 3);
    assert_eq!(refusal_with(&[(9, 3)]), 3);
    assert_eq!(refusal_with(&[(10, 2)]), 3);
    assert_eq!(refusal_with(&[(12, 2)]), 4);
    assert_eq!(refusal_with(&[(13, 3)]), 4);
    assert_eq!(refusal_with(&[(14, 0)]), 4);
    assert_eq!(refusal_with(&[(15, 13)]), 4);
    assert_eq!(refusal_with(&[(13, 2), (15, 3)]), 4);
    assert_eq!(refusal_with(&[(11, 0)]), 5);
    assert_eq!(refusal_with(&[(11, 2)]), 5);
    assert_eq!(refusal_with(&[(15, 9)]), 5);
}

#[test]
fn a_later_rule_waits_for_the_whole_book() {
    assert_eq!(refusal_with(&[(15, 7), (19, 0)]), 4);
    assert_eq!(refusal_with(&[(12, 9), (10, 0)]), 3);
    assert_eq!(refusal_with(&[(8, 0), (0, 3)]), 2);
}

#[test]
fn a_refused_run_writes_nothing() {
    let mut broken = BOOK;
    broken[19] = 7;
    let before = broken;
    let mut answers = [0xEE; 8];
    assert_eq!(run(&mut broken, &[0, 0, 1, 3], &mut answers), 5);
    assert_eq!((broken, answers), (before, [0xEE; 8]));

    let mut book = BOOK;
    assert_eq!(run(&mut book, &[0, 0, 1, 3, 0], &mut answers[..4]), 6);
    assert_eq!(run(&mut book, &[0, 0, 1, 3], &mut answers[..3]), 7);
    assert_eq!(run(&mut book, &[0, 0, 1], &mut answers[..2]), 6);
    assert_eq!((book, answers), (BOOK, [0xEE; 8]));
}

#[test]
fn event_refusals_in_order() {
    let mut book = BOOK;
    let events = [
        [2, 0, 9, 99],
        [0, 0, 2, 3],
        [0, 0, 1, 0],
        [0, 0, 1, 15],
        [0, 0, 0, 3],
        [0, 0, 1, 2],
        [1, 0, 1, 4],
        [0, 0, 1, 4],
        [0, 0, 1, 3],
    ]
    .concat();
    let mut answers = [0xEE; 40];
    assert_eq!(run(&mut book, &events, &mut answers), 0);
    let numbers: Vec<u8> = answers.iter().step_by(4).copied().collect();
    assert_eq!(numbers, [11, 12, 12, 12, 13, 14, 14, 0, 14, 0xEE]);
    assert_eq!(answers[36..], [0xEE; 4]);
    assert_eq!(book[9], 2);
}

#[test]
fn only_a_legal_outcome_sets_the_direction() {
    let mut book = BOOK;
    book[15] = 1;
    let mut answers = [0; 4];
    assert_eq!(run(&mut book, &[0, 0, 1, 3], &mut answers), 0);
    assert_eq!((answers, book[9]), ([14, 1, 0, 0], 0));

    let mut mixed = BOOK;
    mixed[8] = 2;
    assert_eq!(run(&mut mixed, &[0, 0, 1, 3], &mut answers), 0);
    assert_eq!((answers, mixed[9]), ([0, 6, 0, 0], 0));
}

fn refused(refusal: u32, line: u32) -> Reading {
    Reading {
        refusal,
        line,
        count: 0,
    }
}

fn read(text: &[u8]) -> Reading {
    let mut events = [0xEE; 10];
    let reading = read_journal(text, &mut events);
    let written = 4 * reading.count as usize;
    assert!(events[written..].iter().all(|&byte| byte == 0xEE));
    reading
}

#[test]
fn each_line_refusal() {
    let good = Reading {
        refusal: 0,
        line: 0,
        count: 1,
    };
    assert_eq!(
        read(b""),
        Reading {
            refusal: 0,
            line: 0,
            count: 0
        }
    );
    assert_eq!(read(b"65535 sent CannotComplete\n"), good);
    assert_eq!(read(b"65535 sent CannotCompleted\n"), refused(21, 1));
    assert_eq!(read(b"0 got Exit"), refused(21, 1));
    for number in ["", "00", "01", "+1", "-1", "1x", "65536", "100000", " 1"] {
        assert_eq!(
            read(format!("{number} got Exit\n").as_bytes()),
            refused(22, 1),
            "{number}"
        );
    }
    assert_eq!(read(b"\n"), refused(22, 1));
    assert_eq!(read(b"12\n"), refused(22, 1));
    assert_eq!(read(b"1 got\n"), refused(23, 1));
    assert_eq!(read(b"1 Got Exit\n"), refused(23, 1));
    assert_eq!(read(b"1  got Exit\n"), refused(23, 1));
    assert_eq!(read(b"1 got \n"), refused(24, 1));
    assert_eq!(read(b"1 got  Exit\n"), refused(24, 1));
    assert_eq!(read(b"1 got Exit \n"), refused(24, 1));
    assert_eq!(read(b"1 got Exit\r\n"), refused(24, 1));
    assert_eq!(read(b"1 got exit\n"), refused(24, 1));
}

#[test]
fn lines_are_judged_one_by_one() {
    let three = b"0 got Exit\n1 got Exit\n2 got Exit\n";
    assert_eq!(read(three), refused(25, 3));
    assert_eq!(
        read(b"0 got Exit\n1 got Exit\n2 got Exit\nx"),
        refused(25, 3)
    );
    assert_eq!(
        read(b"0 got Exit\n1 got Exit\n2 got Exot\n"),
        refused(24, 3)
    );
    assert_eq!(read_journal(b"0 got Exit\n", &mut [0; 3]), refused(25, 1));
}

#[test]
fn text_and_event_limits() {
    let mut events = vec![0; 4 * 5000];
    let full = b"0 got Exit\n".repeat(4096);
    assert_eq!(
        read_journal(&full, &mut events),
        Reading {
            refusal: 0,
            line: 0,
            count: 4096
        }
    );
    let over = b"0 got Exit\n".repeat(4097);
    assert_eq!(read_journal(&over, &mut events), refused(25, 4097));
    assert_eq!(read_journal(&[b'x'; 65_536], &mut events), refused(21, 1));
    assert_eq!(read_journal(&[b'x'; 65_537], &mut events), refused(26, 0));
}
