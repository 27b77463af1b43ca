//! The walk along waits.

use crate::events::Answer;
use crate::image::Program;
use crate::sorts::Thread;
use crate::state::State;
use crate::step::step;

/// The holder the thread waits for: its next step would be answered waiting.
fn awaited(program: &Program, state: &State, thread: Thread) -> Option<Thread> {
    match step(program, &mut state.clone(), thread) {
        Answer::Waiting(lock) => state.holder(lock),
        _ => None,
    }
}

/// Adds to `met` the threads met from this one on; true if a ring closed.
/// Each call of itself has one thread fewer not yet met.
pub fn walk_on(program: &Program, state: &State, thread: Thread, met: &mut Vec<Thread>) -> bool {
    if met.contains(&thread) {
        return true;
    }
    met.push(thread);
    awaited(program, state, thread).is_some_and(|next| walk_on(program, state, next, met))
}
