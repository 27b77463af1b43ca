//! Damage to the lock sets of a state.

use super::random::Random;
use crate::image::Program;
use crate::job::{Job, LockSet};
use crate::sorts::{Block, Lock, Thread};
use crate::state::State;

/// Changes the lock set of one running thread, in a way that is at times still
/// well formed. What Run would refuse already, and a state in which no thread
/// runs, is left.
pub fn change_locks(random: &mut Random, state: &mut [u8], image: &[u8], table: &[u8]) {
    let Ok(program) = Program::decode(image, table) else {
        return;
    };
    let Ok(mut machine) = State::decode(&program, state) else {
        return;
    };
    let running: Vec<Thread> =
        Thread::all().filter(|&thread| machine.job(thread).is_some()).collect();
    let Some(thread) = random.pick(&running) else {
        return;
    };
    let of_another = |&lock: &Lock| machine.holder(lock).is_some_and(|holder| holder != thread);
    let others: Vec<Lock> = Lock::all().filter(of_another).collect();
    if let Some(job) = &mut machine.jobs[thread.index()] {
        job.locks = changed(random, &program, job, &others);
    }
    state.copy_from_slice(&machine.encode());
}

/// The job's lock set without the lock of a block it is in or returns to, with
/// a lock that another thread holds, or with or without any lock.
fn changed(random: &mut Random, program: &Program, job: &Job, others: &[Lock]) -> LockSet {
    let all: Vec<Lock> = Lock::all().collect();
    let any = all[random.below(all.len())];
    match random.weighted(&[5, 3, 1, 1]) {
        0 => exchanged(random, program, job),
        1 => job.locks.with(random.pick(others).unwrap_or(any)),
        2 => job.locks.with(any),
        _ => job.locks.without(any),
    }
}

/// The set without the lock of the label's or a return label's block, mostly
/// with the lock that has the block's own number in its place.
fn exchanged(random: &mut Random, program: &Program, job: &Job) -> LockSet {
    let label = random.pick(&job.returns).filter(|_| random.once_in(2)).unwrap_or(job.label);
    let lock = program.lock(label);
    let kept = job.locks.without(lock);
    match lock_numbered_as(program.block(label)) {
        Some(own) if own != lock && !random.once_in(4) => kept.with(own),
        _ => kept,
    }
}

fn lock_numbered_as(block: Block) -> Option<Lock> {
    Lock::new(block.number())
}
