//! What arrivals, steps and cuts do to the state.

use crate::events::{Answer, Event, Trap};
use crate::image::Program;
use crate::job::Job;
use crate::registers::Registers;
use crate::sight::Sight;
use crate::sorts::{Label, Lock, Thread};
use crate::state::State;
use crate::statement::{Division, Place, Statement};
use crate::tree::{Signal, Tree};

pub fn carry_out(program: &Program, state: &mut State, event: &Event) -> Answer {
    match event {
        Event::Arrival(signal) => arrive(program, state, signal),
        Event::Step(thread) => step(program, state, *thread),
        Event::Cut(thread) => cut(program, state, *thread),
    }
}

fn arrive(program: &Program, state: &mut State, signal: &Signal) -> Answer {
    if add_tree(program, state, signal.clone()) {
        Answer::Arrived
    } else {
        Answer::ListFull
    }
}

/// Appends a tree with this signal, on its block's thread, if the list has
/// room; otherwise false and no change.
fn add_tree(program: &Program, state: &mut State, signal: Signal) -> bool {
    let room = state.trees.len() < Tree::LIMIT;
    if room {
        let thread = program.thread(signal.label);
        state.trees.push(Tree { thread, pending: vec![signal] });
    }
    room
}

fn cut(program: &Program, state: &mut State, thread: Thread) -> Answer {
    if state.job(thread).is_none() {
        return Answer::NothingToCut;
    }
    end(program, state, thread);
    Answer::Cut
}

pub fn step(program: &Program, state: &mut State, thread: Thread) -> Answer {
    let Some(job) = state.job(thread).cloned() else {
        return start(program, state, thread);
    };
    match advance(program, state, thread, job) {
        Ok(job) => {
            state.jobs[thread.index()] = Some(job);
            Answer::MovedOn
        }
        Err(Stop::Wait(lock)) => Answer::Waiting(lock),
        Err(Stop::Exit(held)) => exit(program, state, thread, held),
        Err(Stop::Trap(trap)) => {
            end(program, state, thread);
            Answer::Trapped(trap)
        }
    }
}

/// The job's own tree is settled, then the held signals found new trees in
/// order; those that find no room are lost.
fn exit(program: &Program, state: &mut State, thread: Thread, held: Vec<Signal>) -> Answer {
    end(program, state, thread);
    let mut lost = 0;
    for signal in held {
        lost += u8::from(!add_tree(program, state, signal));
    }
    Answer::Exited { lost }
}

/// A step of an idle thread. Its trees all have signals pending.
fn start(program: &Program, state: &mut State, thread: Thread) -> Answer {
    let Some(place) = state.first_tree(thread) else {
        return Answer::NoWork;
    };
    let lock = program.lock(state.trees[place].pending[0].label);
    if held_by_another(state, lock, thread) {
        return Answer::Waiting(lock);
    }
    let signal = state.trees[place].pending.remove(0);
    let job = Job::begun(signal.label, lock, &signal.values);
    state.jobs[thread.index()] = Some(job);
    Answer::Started
}

/// A job ended: the thread is idle and holds no signals, and its tree leaves the
/// list if it is empty, else goes to the list's end on the thread of its oldest
/// signal's block.
fn end(program: &Program, state: &mut State, thread: Thread) {
    state.jobs[thread.index()] = None;
    if let Some(place) = state.first_tree(thread) {
        let tree = state.trees.remove(place);
        if let Some(oldest) = tree.pending.first() {
            state.trees.push(Tree { thread: program.thread(oldest.label), ..tree });
        }
    }
}

/// Why a job does not move on.
enum Stop {
    Wait(Lock),
    /// With the signals the job holds.
    Exit(Vec<Signal>),
    Trap(Trap),
}

impl From<Trap> for Stop {
    fn from(trap: Trap) -> Stop {
        Stop::Trap(trap)
    }
}

/// The job after one statement, or why it does not move on. The shared words
/// and the job's tree change only if it moves on.
fn advance(program: &Program, state: &mut State, thread: Thread, job: Job) -> Result<Job, Stop> {
    let sight = Sight { words: &state.words, registers: &job.registers };
    let statement = &program.record(job.label).statement;
    let values = sight.all(statement.data())?;
    match statement {
        Statement::Skip { on } | Statement::Goto { on } => Ok(job.at(*on)),
        Statement::Assign { to, formula, on } => {
            let value = sight.compute(formula)?;
            Ok(store(state, job, *to, value).at(*on))
        }
        Statement::Divide { division, on } => {
            let results = sight.divide(division)?;
            Ok(store_both(state, job, division, results).at(*on))
        }
        Statement::If { test, holds, fails } => {
            let next = if sight.holds(test)? { holds } else { fails };
            Ok(job.at(*next))
        }
        Statement::SendDirect { signal, .. } => {
            enter(program, state, thread, job, *signal, &values)
        }
        Statement::SendBuffered { signal, on, .. } => {
            add_pending(state, thread, Signal { label: *signal, values })?;
            Ok(job.at(*on))
        }
        Statement::SendJobTree { signal, on, .. } => {
            Ok(hold(job, Signal { label: *signal, values })?.at(*on))
        }
        Statement::Call { signal, back, .. } => {
            enter(program, state, thread, go_out(job, *back)?, *signal, &values)
        }
        Statement::Return { .. } => Ok(go_back(job, &values)?),
        Statement::Transfer { signal, .. } => {
            let registers = job.registers.clone().overwritten(&values);
            Ok(job.at(*signal).with(registers))
        }
        Statement::Exit => Err(Stop::Exit(job.held)),
    }
}

/// The end of a direct SEND or a CALL: on to the signal with its block's lock,
/// the values in the registers. A job that holds the lock already, through any
/// block of the group, does not wait.
fn enter(
    program: &Program,
    state: &State,
    thread: Thread,
    job: Job,
    signal: Label,
    values: &[u16],
) -> Result<Job, Stop> {
    if !program.table.open_to(program.block(signal), thread) {
        return Err(Trap::ForeignBlock.into());
    }
    let lock = program.lock(signal);
    if held_by_another(state, lock, thread) {
        return Err(Stop::Wait(lock));
    }
    Ok(job.at(signal).taking(lock).with(Registers::filled(values)))
}

/// CALL adds its return label as the newest.
fn go_out(job: Job, back: Label) -> Result<Job, Trap> {
    if job.returns.len() == Job::RETURNS {
        return Err(Trap::ReturnLabelsFull);
    }
    Ok(job.calling(back))
}

/// RETURN takes the newest return label and keeps every lock.
fn go_back(mut job: Job, values: &[u16]) -> Result<Job, Trap> {
    let newest = job.returns.pop().ok_or(Trap::NoReturnLabel)?;
    Ok(job.at(newest).with(Registers::filled(values)))
}

/// Adds the signal to the end of the running job's own tree.
fn add_pending(state: &mut State, thread: Thread, signal: Signal) -> Result<(), Trap> {
    let own = state.first_tree(thread).map(|place| &mut state.trees[place]);
    match own.filter(|tree| tree.pending.len() < Tree::PENDING) {
        Some(tree) => {
            tree.pending.push(signal);
            Ok(())
        }
        None => Err(Trap::TreeFull),
    }
}

/// The job's own tree has no part in a signal that founds a new one.
fn hold(job: Job, signal: Signal) -> Result<Job, Trap> {
    if job.held.len() == Job::HELD {
        return Err(Trap::HeldFull);
    }
    Ok(job.holding(signal))
}

fn store(state: &mut State, job: Job, to: Place, value: u16) -> Job {
    match to {
        Place::Register(register) => {
            let registers = job.registers.clone().stored(register, value);
            job.with(registers)
        }
        Place::Word(word) => {
            state.words[usize::from(word)] = value;
            job
        }
    }
}

/// The places are different: neither result takes the other's.
fn store_both(
    state: &mut State,
    job: Job,
    to: &Division,
    (quotient, remainder): (u16, u16),
) -> Job {
    let job = store(state, job, to.quotient, quotient);
    store(state, job, to.remainder, remainder)
}

fn held_by_another(state: &State, lock: Lock, thread: Thread) -> bool {
    state.holder(lock).is_some_and(|holder| holder != thread)
}
