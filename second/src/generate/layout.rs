//! The routines of an image: what is settled of its records before their statements.

use super::random::Random;
use crate::image::Entry;
use crate::sorts::Block;

/// What is settled of one record. The records of a routine follow each other.
pub struct Slot {
    pub block: Block,
    pub entry: Entry,
    pub position: Position,
}

/// Where a record is in its routine: within it, or at the end of one that is
/// called or of one that starts jobs.
#[derive(Clone, Copy)]
pub enum Position {
    Within = 0,
    EndOfCalled = 1,
    EndOfStarting = 2,
}

/// The usual entries of the first routines, so that jobs start and call.
const FIRST_ENTRIES: [Entry; 6] = [
    Entry::External,
    Entry::External,
    Entry::Direct,
    Entry::Direct,
    Entry::External,
    Entry::Buffered,
];

/// Routines in a few of these blocks by turns, as many as make `count` records.
pub fn layout(random: &mut Random, count: usize, available: &[Block]) -> Vec<Slot> {
    let blocks: Vec<Block> = (0..random.one_of([1, 2, 3, 3, 4, 4, 5, 6, 8, Block::COUNT]))
        .map(|_| available[random.below(available.len())])
        .collect();
    let half = random.one_of([1, 2, 2, 3, 3, 4, 6, 10]).min(1 + count / 12);
    let usual: &[Entry] = if random.once_in(16) { &[] } else { &FIRST_ENTRIES };
    let mut slots = Vec::new();
    for turn in 0.. {
        if slots.len() == count {
            break;
        }
        let drawn = Entry::ALL[random.weighted(&[0, 3, 2, 2])];
        let first = usual.get(turn).copied().unwrap_or(drawn);
        let length = random.between(half, 2 * half).min(count - slots.len());
        add_routine(random, &mut slots, blocks[turn % blocks.len()], first, length);
    }
    slots
}

/// Adds a routine with this entry at its first record and few within.
fn add_routine(
    random: &mut Random,
    slots: &mut Vec<Slot>,
    block: Block,
    first: Entry,
    length: usize,
) {
    let mut entry = first;
    for _ in 1..length {
        slots.push(Slot { block, entry, position: Position::Within });
        entry = Entry::ALL[random.weighted(&[20, 1, 1, 1])];
    }
    let position = match first {
        Entry::Direct => Position::EndOfCalled,
        _ => Position::EndOfStarting,
    };
    slots.push(Slot { block, entry, position });
}
