//! The held signals in the bytes of a state.

use crate::sizes::{HELD, THREAD, THREADS, WORDS};

/// How many signals each thread holds.
pub fn held_counts(state: &[u8]) -> impl Iterator<Item = usize> + '_ {
    state[WORDS..].chunks(THREAD).take(THREADS).map(|record| usize::from(record[HELD]))
}
