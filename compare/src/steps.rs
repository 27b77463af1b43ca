//! The first steps of threads in a Run, in the bytes of images, states and events.

use crate::codes::{NUMBER, REGISTER};
use crate::sizes::{
    operand, BLOCK, BLOCK_WORDS, EVENT, LABEL, PRESENCE, RECORD, REGISTERS, THREAD, WORDS,
};
use std::collections::BTreeSet;

/// Kinds of events.
const ARRIVAL: u8 = 1;
const STEP: u8 = 2;

/// The next step of a thread that runs: its record, and what it reads from.
pub struct Step<'a> {
    pub record: &'a [u8],
    thread: &'a [u8],
    state: &'a [u8],
}

/// The steps that are their thread's first event, in an accepted Run from this
/// state. A thread's operands are in its registers and in a block whose lock it
/// holds: what others do before leaves them as they are.
pub fn first_steps<'a>(
    image: &'a [u8],
    state: &'a [u8],
    events: &'a [u8],
) -> impl Iterator<Item = Step<'a>> + 'a {
    let mut threads_met = BTreeSet::new();
    let turns = events.chunks(EVENT).filter(|event| event[0] != ARRIVAL);
    let first_turns = turns.filter(move |event| threads_met.insert(event[1]));
    let steps = first_turns.filter(|event| event[0] == STEP);
    steps.filter_map(move |event| Step::next(image, state, usize::from(event[1])))
}

impl<'a> Step<'a> {
    /// An idle thread has no record's label.
    fn next(image: &'a [u8], state: &'a [u8], thread: usize) -> Option<Step<'a>> {
        let thread = &state[WORDS + THREAD * thread..][..THREAD];
        let record = image.chunks(RECORD).nth(number(thread, LABEL).into())?;
        Some(Step { record, thread, state })
    }

    /// The kind of an operand, and then its value.
    pub fn operand(&self, index: usize) -> &[u8] {
        &self.record[operand(index)]
    }

    pub fn kind(&self, index: usize) -> u8 {
        self.operand(index)[0]
    }

    /// Whether the two operands of each pair are the same.
    pub fn are_same(&self, pairs: &[(usize, usize)]) -> bool {
        pairs.iter().all(|&(one, other)| self.operand(one) == self.operand(other))
    }

    pub fn values<const COUNT: usize>(&self, indices: [usize; COUNT]) -> [Option<u16>; COUNT] {
        indices.map(|index| self.value(index))
    }

    /// The value of an operand, none for an absent register.
    pub fn value(&self, index: usize) -> Option<u16> {
        let value = number(self.operand(index), 1);
        match self.kind(index) {
            NUMBER => Some(value),
            REGISTER => self.register(usize::from(value)),
            _ => {
                let word = BLOCK_WORDS * usize::from(self.record[BLOCK]) + usize::from(value);
                Some(number(self.state, 2 * word))
            }
        }
    }

    fn register(&self, register: usize) -> Option<u16> {
        let is_present = self.thread[PRESENCE + register / 8] >> (register % 8) & 1 == 1;
        is_present.then(|| number(self.thread, REGISTERS + 2 * register))
    }
}

fn number(bytes: &[u8], place: usize) -> u16 {
    u16::from_le_bytes([bytes[place], bytes[place + 1]])
}
