//! Machines, event lists and damaged calls at random, the same for the same
//! seed, to compare engines byte for byte.

mod damage;
mod decimal_damage;
#[cfg(test)]
mod decimal_trials;
mod decimals;
mod division_damage;
#[cfg(test)]
mod division_trials;
mod events;
#[cfg(test)]
mod held_trials;
mod image;
mod known;
mod layout;
mod lock_damage;
#[cfg(test)]
mod lock_trials;
mod operands;
mod pair;
mod random;
mod record_damage;
#[cfg(test)]
mod record_trials;
#[cfg(test)]
mod subtraction_trials;
mod table;
#[cfg(test)]
mod trials;

pub use damage::{damage, only_held_changed, only_locks_changed};
pub use events::events;
pub use image::image;
pub use pair::{damage_pair, pair, Guest, Pair};
pub use random::Random;
pub use table::table;

use crate::calls::{fresh, MET_LENGTH};
use crate::events::{Answer, Event};
use crate::sorts::Thread;
use crate::state::State;

/// Everything that may be lent to a call.
#[derive(Clone)]
pub struct Lent {
    pub image: Vec<u8>,
    pub table: Vec<u8>,
    pub words: Vec<u8>,
    pub state: Vec<u8>,
    pub events: Vec<u8>,
    pub answers: Vec<u8>,
    /// The walk's thread.
    pub thread: u32,
    /// The walk's buffer.
    pub met: Vec<u8>,
}

/// A machine and an event list that check, Fresh and then Run accept. What
/// they and the walk write to is of the right length and holds any bytes: Run
/// and the walk accept the state once Fresh has written it.
pub fn lent(seed: u64) -> Lent {
    let random = &mut Random::new(seed);
    let (image, table, words) = (image(random), table(random), words(random));
    let state = noise(random, State::LENGTH);
    let events = first_events(random, &image, &table, &words);
    let answers = noise(random, events.len() / Event::WIDTH * Answer::WIDTH);
    let thread = random.below(Thread::COUNT) as u32;
    let met = noise(random, MET_LENGTH);
    Lent { image, table, words, state, events, answers, thread, met }
}

/// An event list that Run accepts once Fresh has accepted these.
fn first_events(random: &mut Random, image: &[u8], table: &[u8], words: &[u8]) -> Vec<u8> {
    let mut state = vec![0; State::LENGTH];
    fresh(image, table, words, &mut state);
    events(random, image, table, &state)
}

/// 512 initial bytes: words any, or mostly small.
pub fn words(random: &mut Random) -> Vec<u8> {
    if random.once_in(2) {
        return noise(random, State::WORDS_LENGTH);
    }
    (0..State::WORDS_LENGTH / 2).flat_map(|_| random.value().to_le_bytes()).collect()
}

fn noise(random: &mut Random, length: usize) -> Vec<u8> {
    (0..length).map(|_| random.byte()).collect()
}
