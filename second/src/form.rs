//! The rules of a well formed state that hold between its parts. Those within
//! one part (counts, unused bytes, labels, presence) are tested as it is read.

use crate::image::{Entry, Program};
use crate::job::Job;
use crate::sorts::Thread;
use crate::state::State;
use crate::tree::Signal;

pub fn well_formed(program: &Program, state: &State) -> bool {
    locks_apart(state)
        && Thread::all().all(|thread| match state.job(thread) {
            Some(job) => state.first_tree(thread).is_some() && in_its_blocks(program, thread, job),
            None => true,
        })
        && signal_entries(program, state)
        && trees_at_home(program, state)
}

/// No lock is in two sets.
fn locks_apart(state: &State) -> bool {
    let jobs: Vec<&Job> = state.jobs.iter().flatten().collect();
    jobs.iter()
        .enumerate()
        .all(|(place, job)| jobs[..place].iter().all(|other| !job.locks.meets(other.locks)))
}

/// The job holds the locks of its label's and return labels' blocks, and each of
/// those blocks is CMX or the thread's own.
fn in_its_blocks(program: &Program, thread: Thread, job: &Job) -> bool {
    job.returns.iter().chain([&job.label]).all(|&label| {
        let open = program.table.open_to(program.block(label), thread);
        open && job.locks.holds(program.lock(label))
    })
}

/// A held signal was sent by a job, a pending one may also have arrived.
fn signal_entries(program: &Program, state: &State) -> bool {
    let entry = |signal: &Signal| program.record(signal.label).entry;
    let mut held = state.jobs.iter().flatten().flat_map(|job| &job.held);
    let mut pending = state.trees.iter().flat_map(|tree| &tree.pending);
    held.all(|signal| entry(signal) == Entry::Buffered)
        && pending.all(|signal| matches!(entry(signal), Entry::Buffered | Entry::External))
}

/// A tree that is not a running thread's first has a signal pending and
/// belongs to the thread of the block of the oldest.
fn trees_at_home(program: &Program, state: &State) -> bool {
    state.trees.iter().enumerate().all(|(place, tree)| {
        let of_its_job =
            state.job(tree.thread).is_some() && state.first_tree(tree.thread) == Some(place);
        let oldest = tree.pending.first();
        of_its_job || oldest.is_some_and(|signal| program.thread(signal.label) == tree.thread)
    })
}
