//! Another order of an event list that keeps the order within each activity.

use crate::random::Random;
use independent::book::parts;
use independent::numbers::size;
use std::collections::{HashMap, VecDeque};

/// Positions of the list's events in another order. Events of one activity stay
/// in their order; an event of no seat has no such bond.
pub fn interleaving(book: &[u8], events: &[u8], random: &mut Random) -> Vec<usize> {
    let mut waiting: HashMap<u32, VecDeque<usize>> = HashMap::new();
    let mut labels = Vec::new();
    for (position, group) in groups(book, events).into_iter().enumerate() {
        waiting.entry(group).or_default().push_back(position);
        labels.push(group);
    }
    for last in (1..labels.len()).rev() {
        labels.swap(last, random.below(last + 1));
    }
    let mut next = |group: &u32| waiting.get_mut(group).and_then(VecDeque::pop_front);
    labels.iter().filter_map(&mut next).collect()
}

/// For each event a number that it shares with the events of its activity only.
fn groups(book: &[u8], events: &[u8]) -> Vec<u32> {
    let mut copy = book.to_vec();
    let seats = parts(&mut copy).seats;
    let group = |(position, event): (usize, &[u8])| {
        let seat = usize::from(u16::from_le_bytes([event[0], event[1]]));
        match seats.get(size::SEAT * seat) {
            Some(&activity) => u32::from(activity),
            None => 256 + position as u32,
        }
    };
    events
        .chunks_exact(size::EVENT)
        .enumerate()
        .map(group)
        .collect()
}

/// The records in the order that the positions give.
pub fn in_order(records: &[u8], positions: &[usize]) -> Vec<u8> {
    positions
        .iter()
        .flat_map(|&at| &records[size::EVENT * at..][..size::EVENT])
        .copied()
        .collect()
}
