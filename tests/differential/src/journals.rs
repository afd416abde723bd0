//! Made-up journals, good and damaged at every field.

use crate::random::Random;
use independent::journal::NAMES;
use independent::numbers::limit;

/// A line in the fields that can go wrong.
struct Line {
    seat: Vec<u8>,
    first_gap: Vec<u8>,
    way: Vec<u8>,
    second_gap: Vec<u8>,
    name: Vec<u8>,
    end: Vec<u8>,
}

impl Line {
    fn good(random: &mut Random) -> Line {
        Line {
            seat: seat_number(random).to_string().into_bytes(),
            first_gap: b" ".to_vec(),
            way: random
                .pick(&[b"got".as_slice(), b"sent".as_slice()])
                .to_vec(),
            second_gap: b" ".to_vec(),
            name: random.pick(&NAMES).0.to_vec(),
            end: b"\n".to_vec(),
        }
    }

    /// Short enough for more than 4,096 of its like to be a text.
    fn short(random: &mut Random) -> Line {
        let short: [&[u8]; 5] = [b"Exit", b"Fail", b"Close", b"Cancel", b"Exited"];
        let mut line = Line::good(random);
        line.seat = random.below(100).to_string().into_bytes();
        line.name = random.pick(&short).to_vec();
        line
    }

    fn write(&self, text: &mut Vec<u8>) {
        let fields = [
            &self.seat,
            &self.first_gap,
            &self.way,
            &self.second_gap,
            &self.name,
            &self.end,
        ];
        for field in fields {
            text.extend_from_slice(field);
        }
    }

    fn damage(&mut self, random: &mut Random) {
        match random.below(7) {
            0 => self.seat = wrong_seat(random),
            1 => self.first_gap = wrong_gap(random),
            2 => self.way = wrong_way(random),
            3 => self.second_gap = wrong_gap(random),
            4 => self.name = wrong_name(&self.name, random),
            5 => self.end = wrong_end(random),
            _ => *self = cut_short(random),
        }
    }
}

fn seat_number(random: &mut Random) -> u16 {
    match random.below(4) {
        0 => random.below(10) as u16,
        1 => random.pick(&[
            0, 9, 10, 99, 100, 999, 1000, 4095, 4096, 9999, 10_000, 65_535,
        ]),
        2 => random.below(4096) as u16,
        _ => random.number() as u16,
    }
}

fn wrong_seat(random: &mut Random) -> Vec<u8> {
    let fixed: [&[u8]; 18] = [
        b"",
        b"00",
        b"007",
        b"65536",
        b"65540",
        b"70000",
        b"99999",
        b"100000",
        b"4294967296",
        b"18446744073709551616",
        b"-1",
        b"+1",
        b"0x1",
        b"1.",
        b"1,000",
        b"1_0",
        b"/",
        b":",
    ];
    if random.percent(60) {
        return random.pick(&fixed).to_vec();
    }
    let mut digits = seat_number(random).to_string().into_bytes();
    let at = random.below(digits.len() + 1);
    digits.insert(at, random.byte());
    digits
}

fn wrong_gap(random: &mut Random) -> Vec<u8> {
    let fixed: [&[u8]; 6] = [b"", b"  ", b"\t", b"\n", b"\0", b"\xA0"];
    random.pick(&fixed).to_vec()
}

fn wrong_way(random: &mut Random) -> Vec<u8> {
    let fixed: [&[u8]; 14] = [
        b"", b"go", b"gott", b"Got", b"GOT", b"gof", b"xot", b"sen", b"sents", b"Sent", b"send",
        b"s nt", b"got\0", b"sentgot",
    ];
    random.pick(&fixed).to_vec()
}

fn wrong_name(name: &[u8], random: &mut Random) -> Vec<u8> {
    let fixed: [&[u8]; 8] = [
        b"",
        b"Cancelled",
        b"Faulted",
        b"Fault",
        b"cancel",
        b"Complet",
        b"Exit Exit",
        b"Closedd",
    ];
    let mut wrong = name.to_vec();
    let at = random.below(name.len());
    match random.below(6) {
        0 => return random.pick(&fixed).to_vec(),
        1 => wrong.truncate(at),
        2 => wrong.insert(at, random.byte()),
        3 => wrong[at] ^= 1 << random.below(8),
        4 => wrong.push(random.pick(b" d\r\0s")),
        _ => wrong.extend(vec![b'x'; random.within(1, 20)]),
    }
    wrong
}

fn wrong_end(random: &mut Random) -> Vec<u8> {
    let fixed: [&[u8]; 6] = [b"", b"\r\n", b"\n\n", b" \n", b"\0", b"\r"];
    random.pick(&fixed).to_vec()
}

/// A line that has only its first fields, or none.
fn cut_short(random: &mut Random) -> Line {
    let mut line = Line::good(random);
    let kept = random.below(5);
    let fields = [
        &mut line.name,
        &mut line.second_gap,
        &mut line.way,
        &mut line.first_gap,
    ];
    for field in fields.into_iter().take(kept) {
        field.clear();
    }
    if kept == 4 {
        line.seat.clear();
    }
    line
}

/// With more lines than this a text of any names could be too long.
const MANY_LINES: usize = limit::TEXT_BYTES / limit::LINE_BYTES;

fn line_count(random: &mut Random) -> usize {
    match random.below(1000) {
        0..=1 => limit::EVENTS + 1 - random.below(3),
        2..=4 => random.within(0, limit::EVENTS),
        5..=60 => random.within(0, 150),
        _ => random.within(0, 10),
    }
}

pub fn journal(random: &mut Random) -> Vec<u8> {
    match random.below(100) {
        0..=2 => noise(random),
        3 if random.percent(20) => around_text_limit(random),
        _ => lines(random),
    }
}

fn lines(random: &mut Random) -> Vec<u8> {
    let count = line_count(random);
    let damaged_line = if count > 0 && random.percent(50) {
        Some(random.below(count))
    } else {
        None
    };
    let good = if count > MANY_LINES {
        Line::short
    } else {
        Line::good
    };
    let mut text = Vec::new();
    for number in 0..count {
        let mut line = good(random);
        if damaged_line == Some(number) {
            line.damage(random);
        }
        line.write(&mut text);
    }
    if random.percent(10) {
        damage_anywhere(&mut text, random);
    }
    text
}

fn damage_anywhere(text: &mut Vec<u8>, random: &mut Random) {
    if text.is_empty() {
        return;
    }
    let at = random.below(text.len());
    match random.below(4) {
        0 => text[at] = random.byte(),
        1 => text.insert(at, random.byte()),
        2 => {
            text.remove(at);
        }
        _ => text.truncate(at),
    }
}

/// Short lines that end at the text's limit, or a little before or past it.
fn around_text_limit(random: &mut Random) -> Vec<u8> {
    let length = limit::TEXT_BYTES + 2 - random.below(5);
    let mut text = Vec::with_capacity(length + limit::LINE_BYTES);
    while text.len() < length {
        Line::good(random).write(&mut text);
    }
    text.truncate(length);
    text
}

fn noise(random: &mut Random) -> Vec<u8> {
    let count = random.below(80);
    if random.percent(30) {
        return random.bytes(count);
    }
    let letters = b"0123456789 0 1 2\n\n gotsentgotsentExitFailCloseCancelComplet";
    (0..count).map(|_| random.pick(letters)).collect()
}

/// A journal of so many good lines.
pub fn good_journal(count: usize, random: &mut Random) -> Vec<u8> {
    let mut text = Vec::new();
    for _ in 0..count {
        Line::good(random).write(&mut text);
    }
    text
}
