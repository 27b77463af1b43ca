//! Damage to what a call is lent. Some damaged calls are still accepted.

use super::decimal_damage::change_decimal;
use super::division_damage::change_division;
use super::events::thread;
use super::lock_damage::change_locks;
use super::random::Random;
use super::Lent;
use crate::bytes::Writer;
use crate::calls::MET_LENGTH;
use crate::events::{Answer, Event};
use crate::image::{Program, Record};
use crate::job::Job;
use crate::sorts::{Block, Lock, Thread};
use crate::state::State;
use crate::table::Table;
use crate::tree::{Signal, Tree};
use std::ops::Range;

/// One edit or a few, each of a byte, a bit, a record, a lock set, a length or
/// the thread.
pub fn damage(random: &mut Random, lent: &mut Lent) {
    for _ in 0..random.one_of([1, 1, 1, 2, 3]) {
        match random.weighted(&[6, 4, 12, 4, 5, 1, 2, 8]) {
            0 => change_image(random, &mut lent.image),
            1 => change_table(random, &mut lent.table),
            2 => change_state(random, &mut lent.state, &lent.image),
            3 => change_locks(random, &mut lent.state, &lent.image, &lent.table),
            4 => change_records(random, &mut lent.events, Event::WIDTH),
            5 => change_records(random, &mut lent.words, 2),
            6 => lent.thread = random.one_of([0, 1, 7, 8, 9, 255, 256, 65_536, u32::MAX]),
            _ => change_length(random, lent),
        }
    }
}

/// Changes the words, the threads, one thread's fields but its held signals, or
/// those, the tree count, the live trees and one more, or the signals of such a
/// tree. A state of wrong length is left.
fn change_state(random: &mut Random, state: &mut [u8], image: &[u8]) {
    if state.len() != State::LENGTH {
        return;
    }
    let (words, rest) = state.split_at_mut(State::WORDS_LENGTH);
    let (threads, rest) = rest.split_at_mut(Job::WIDTH * Thread::COUNT);
    let (tree_count, trees) = rest.split_at_mut(1);
    let live = Tree::LIMIT.min(usize::from(tree_count[0]) + 1);
    match random.weighted(&[1, 3, 5, 6, 1, 3, 3]) {
        0 => change_records(random, words, 2),
        1 => change_records(random, threads, Job::WIDTH),
        2 => {
            let thread = &mut threads[Job::WIDTH * random.below(Thread::COUNT)..];
            change_records(random, &mut thread[..Job::HELD_START], Job::HELD_START);
        }
        3 => change_held(random, threads, image),
        4 => change_records(random, tree_count, 1),
        5 => change_records(random, &mut trees[..Tree::WIDTH * live], Tree::WIDTH),
        _ => {
            let tree = &mut trees[Tree::WIDTH * random.below(live)..][..Tree::WIDTH];
            change_records(random, &mut tree[2..], Signal::WIDTH);
        }
    }
}

/// Whether the states differ, and in held signals only, with one image and table.
pub fn only_held_changed(one: &Lent, other: &Lent) -> bool {
    only_changed(one, other, Job::HELD_START..Job::WIDTH)
}

/// Whether the states differ, and in lock sets only, with one image and table.
pub fn only_locks_changed(one: &Lent, other: &Lent) -> bool {
    only_changed(one, other, Job::LOCKS)
}

/// Whether the states differ, and in these bytes of thread records only, with
/// one image and table.
fn only_changed(one: &Lent, other: &Lent, bytes: Range<usize>) -> bool {
    let cleared = |state: &[u8]| {
        let mut state = state.to_vec();
        let threads = &mut state[State::WORDS_LENGTH..][..Job::WIDTH * Thread::COUNT];
        threads.chunks_mut(Job::WIDTH).for_each(|thread| thread[bytes.clone()].fill(0));
        state
    };
    (&one.image, &one.table) == (&other.image, &other.table)
        && one.state.len() == other.state.len()
        && one.state != other.state
        && cleared(&one.state) == cleared(&other.state)
}

/// Mostly draws new held signals for a thread, mostly for one that runs; then
/// changes at times their count, the first one's value count or one of them.
fn change_held(random: &mut Random, threads: &mut [u8], image: &[u8]) {
    let runs = |thread: Thread| threads[Job::WIDTH * thread.index()..][..2] != [255, 255];
    let record = Job::WIDTH * thread(random, runs).index();
    let held = &mut threads[record..][Job::HELD_START..Job::WIDTH];
    if !random.once_in(4) {
        held.copy_from_slice(&drawn_held(random, image));
    }
    let (count, signals) = held.split_at_mut(1);
    let telling = telling_byte(random);
    match random.below(4) {
        0 => {}
        1 => count[0] = random.one_of([4, 5, telling]),
        2 => signals[2] = telling,
        _ => change_records(random, signals, Signal::WIDTH),
    }
}

/// The end of a thread record that holds signals of this image.
fn drawn_held(random: &mut Random, image: &[u8]) -> Vec<u8> {
    let count = random.between(1, Job::HELD);
    let labels: Vec<u16> = (0..count).map(|_| held_label(random, image)).collect();
    let mut writer = Writer::default();
    writer.list(Job::HELD, Signal::WIDTH, &labels, |writer, &label| {
        writer.pair(label);
        writer.list(Signal::VALUES, 2, &random.values(), |writer, &value| writer.pair(value));
    });
    writer.bytes
}

/// Mostly a label of entry 2, which a held signal must have; at times of
/// another entry, or the first that no record has.
fn held_label(random: &mut Random, image: &[u8]) -> u16 {
    let entry = random.weighted(&[1, 1, 12, 1]);
    let labels = labels_where(image, |record| usize::from(record[2]) == entry);
    let beyond = (image.len() / Record::WIDTH) as u16;
    if random.once_in(16) {
        beyond
    } else {
        random.pick(&labels).unwrap_or(beyond)
    }
}

/// Changes any record, or at times one that divides or one on packed decimals.
pub fn change_image(random: &mut Random, image: &mut [u8]) {
    let opcode = random.one_of([12, 12, 12, 13, 14, 15]);
    let labels = labels_where(image, |record| record[0] == opcode);
    match random.pick(&labels).filter(|_| random.once_in(3)) {
        Some(label) => {
            let record = &mut image[Record::WIDTH * usize::from(label)..][..Record::WIDTH];
            match opcode {
                12 => change_division(random, record),
                _ => change_decimal(random, record),
            }
        }
        None => change_records(random, image, Record::WIDTH),
    }
}

/// The labels of the records that fit.
fn labels_where(image: &[u8], fits: impl Fn(&[u8]) -> bool) -> Vec<u16> {
    let records = (0..).zip(image.chunks_exact(Record::WIDTH));
    records.filter(|(_, record)| fits(record)).map(|(label, _)| label).collect()
}

/// Flips a bit or sets a byte of one of the records of this width, or copies
/// or swaps two; nothing if there is none.
fn change_records(random: &mut Random, bytes: &mut [u8], width: usize) {
    let count = bytes.len() / width;
    if count == 0 {
        return;
    }
    let (one, other) = (width * random.below(count), width * random.below(count));
    let front = if random.once_in(4) { width } else { width.min(10) };
    let place = one + random.below(front);
    match random.weighted(&[4, 4, 1, 1]) {
        0 => bytes[place] ^= 1 << random.below(8),
        1 => bytes[place] = telling_byte(random),
        2 => bytes.copy_within(one..one + width, other),
        _ => (0..width).for_each(|offset| bytes.swap(one + offset, other + offset)),
    }
}

/// Changes any row, or the lock of a block, often of the last, to a lock or a
/// number beyond them.
pub fn change_table(random: &mut Random, table: &mut [u8]) {
    if random.once_in(2) {
        return change_records(random, table, Table::ROW_WIDTH);
    }
    let (block, lock) = (random.below(Block::COUNT), random.below(Lock::COUNT) as u8);
    let block = random.one_of([block, Block::COUNT - 1]);
    if let Some(row) = table.chunks_exact_mut(Table::ROW_WIDTH).nth(block) {
        row[Table::LOCK_PLACE] = random.one_of([lock, 15, 16, 255]);
    }
}

/// A byte at or beside a limit, or any.
fn telling_byte(random: &mut Random) -> u8 {
    let any = random.byte();
    random.one_of([0, 1, 2, 3, 4, 5, 7, 8, 9, 10, 11, 12, 13, 14, 15, 16, 17, 24, 25, 26, 255, any])
}

fn change_length(random: &mut Random, lent: &mut Lent) {
    let (bytes, width, limit) = match random.below(7) {
        0 => (&mut lent.image, Record::WIDTH, Program::LENGTH_LIMIT),
        1 => return resize_table(random, &mut lent.table),
        2 => (&mut lent.words, 2, State::WORDS_LENGTH),
        3 => (&mut lent.state, Tree::WIDTH, State::LENGTH),
        4 => (&mut lent.events, Event::WIDTH, Event::WIDTH * Event::LIMIT),
        5 => (&mut lent.answers, Answer::WIDTH, Answer::WIDTH * Event::LIMIT),
        _ => (&mut lent.met, 1, MET_LENGTH),
    };
    resize(random, bytes, width, limit);
}

/// Shortens the bytes or makes them longer, at times to their limit or beyond.
pub fn resize(random: &mut Random, bytes: &mut Vec<u8>, width: usize, limit: usize) {
    let length = bytes.len();
    let shorter = [0, random.below(length + 1), length.max(1) - 1, length.max(width) - width];
    let longer = [length + 1, length + width, limit, limit + 1, limit + width];
    let length = if random.once_in(2) { random.one_of(shorter) } else { random.one_of(longer) };
    bytes.resize(length, random.one_of([0, 1]));
}

/// As `resize` does, or to the length that rows of one byte fewer or more give.
pub fn resize_table(random: &mut Random, table: &mut Vec<u8>) {
    if random.once_in(2) {
        resize(random, table, Table::ROW_WIDTH, Table::LENGTH);
    } else {
        let width = random.one_of([Table::ROW_WIDTH - 1, Table::ROW_WIDTH + 1]);
        table.resize(width * Block::COUNT, 0);
    }
}
