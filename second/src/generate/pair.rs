//! Pairs of guests to be linked, and damage to them.

use super::damage::{change_image, change_table, resize, resize_table};
use super::image::{image_in, record_count};
use super::random::Random;
use super::table::table;
use super::{first_events, noise, words};
use crate::image::{Program, Record};
use crate::sorts::Block;

/// A guest's image, and an event list that Run accepts with it after Fresh.
#[derive(Clone)]
pub struct Guest {
    pub image: Vec<u8>,
    pub events: Vec<u8>,
}

/// Everything that may be lent to link, with the words both guests begin from.
#[derive(Clone)]
pub struct Pair {
    pub first: Guest,
    pub second: Guest,
    pub table: Vec<u8>,
    pub words: Vec<u8>,
    pub out: Vec<u8>,
}

/// Two guests that link accepts: one table, no block but often a lock in common,
/// at most 512 records together, at times just 512. The output is of their exact length
/// and holds any bytes. The events are each guest's by itself: to run on the
/// linked image they are relocated.
pub fn pair(seed: u64) -> Pair {
    let random = &mut Random::new(seed);
    let (table, words) = (table(random), words(random));
    let mut blocks: Vec<Block> = Block::all().collect();
    random.shuffle(&mut blocks);
    let (of_first, of_second) = blocks.split_at(random.between(1, Block::COUNT - 1));
    let first_count = record_count(random).min(Program::LIMIT - 1);
    let second_count = record_count(random).min(Program::LIMIT - first_count);
    let mut guest = |count, blocks| {
        let image = image_in(random, count, blocks);
        let events = first_events(random, &image, &table, &words);
        Guest { image, events }
    };
    let (first, second) = (guest(first_count, of_first), guest(second_count, of_second));
    let out = noise(random, first.image.len() + second.image.len());
    Pair { first, second, table, words, out }
}

/// A few edits of what link is lent, so that every refusal is met and often
/// several causes apply. Some damaged pairs are still accepted.
pub fn damage_pair(random: &mut Random, pair: &mut Pair) {
    for _ in 0..random.one_of([1, 1, 2, 2, 3, 4]) {
        let (one, other) = if random.once_in(2) {
            (&mut pair.first.image, &pair.second.image)
        } else {
            (&mut pair.second.image, &pair.first.image)
        };
        match random.weighted(&[8, 3, 4, 3, 3]) {
            0 => change_image(random, one),
            1 => change_table(random, &mut pair.table),
            2 => change_length(random, pair),
            3 => share_block(random, one, other),
            _ => fill_up(random, one, other, &mut pair.out),
        }
    }
}

fn change_length(random: &mut Random, pair: &mut Pair) {
    let (bytes, width, limit) = match random.below(5) {
        0 => (&mut pair.first.image, Record::WIDTH, Program::LENGTH_LIMIT),
        1 => (&mut pair.second.image, Record::WIDTH, Program::LENGTH_LIMIT),
        2 => return resize_table(random, &mut pair.table),
        _ => (&mut pair.out, Record::WIDTH, Program::LENGTH_LIMIT),
    };
    resize(random, bytes, width, limit);
}

/// Gives one of the image's blocks the number of one of the other's. The image
/// keeps its rules: its labels stay together and words count within a block.
fn share_block(random: &mut Random, image: &mut [u8], other: &[u8]) {
    let mut block = |image| any_record(random, image).map(|record| record[1]);
    if let (Some(old), Some(new)) = (block(image), block(other)) {
        let records = image.chunks_exact_mut(Record::WIDTH);
        records.filter(|record| record[1] == old).for_each(|record| record[1] = new);
    }
}

/// Adds copies of one of the image's records, which keep its rules, until just
/// 512, 513 or far more records result; the output gets their exact length.
fn fill_up(random: &mut Random, image: &mut Vec<u8>, other: &[u8], out: &mut Vec<u8>) {
    let Some(record) = any_record(random, image).map(<[u8]>::to_vec) else {
        return;
    };
    let count = random.one_of([Program::LIMIT, Program::LIMIT + 1, 2 * Program::LIMIT]);
    let goal = (Record::WIDTH * count).saturating_sub(other.len()).min(Program::LENGTH_LIMIT);
    while image.len() < goal {
        image.extend(&record);
    }
    out.resize(image.len() + other.len(), 0);
}

fn any_record<'a>(random: &mut Random, image: &'a [u8]) -> Option<&'a [u8]> {
    let records: Vec<&[u8]> = image.chunks_exact(Record::WIDTH).collect();
    random.pick(&records)
}
