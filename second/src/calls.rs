//! The calls of the host. A refused call alters no lent byte: every test
//! comes before the first write.

use crate::encode::image_bytes;
use crate::events::{Answer, Event};
use crate::image::{Program, Record};
use crate::link::linked;
use crate::refusal::Refusal;
use crate::sorts::Thread;
use crate::state::State;
use crate::step::carry_out;
use crate::table::Table;
use crate::waits::walk_on;

/// Bytes the walk writes into.
pub const MET_LENGTH: usize = Thread::COUNT;

/// Tests an image and its block table: 0, or the refusal.
pub fn check(image: &[u8], table: &[u8]) -> u32 {
    returned(Program::decode(image, table).map(|_| 0))
}

/// Makes `state` a fresh machine with these shared words: 0, or the refusal.
pub fn fresh(image: &[u8], table: &[u8], words: &[u8], state: &mut [u8]) -> u32 {
    returned(try_fresh(image, table, words, state))
}

/// Carries out the events on `state` and writes two answer bytes for each: 0,
/// or the refusal.
pub fn run(image: &[u8], table: &[u8], state: &mut [u8], events: &[u8], answers: &mut [u8]) -> u32 {
    returned(try_run(image, table, state, events, answers))
}

/// Walks along waits from `thread`: the count of threads met, plus 256 if a
/// ring closed, or the refusal.
pub fn walk(image: &[u8], table: &[u8], state: &[u8], thread: u32, met: &mut [u8]) -> u32 {
    returned(try_walk(image, table, state, thread, met))
}

/// Writes to `out` the second image laid behind the first, both for one table
/// (document 02, #101): 0, or the refusal.
pub fn link(first: &[u8], second: &[u8], table: &[u8], out: &mut [u8]) -> u32 {
    returned(try_link(first, second, table, out))
}

fn returned(result: Result<u32, Refusal>) -> u32 {
    result.unwrap_or_else(u32::from)
}

fn try_fresh(image: &[u8], table: &[u8], words: &[u8], state: &mut [u8]) -> Result<u32, Refusal> {
    Program::decode(image, table)?;
    State::test_length(state)?;
    state.copy_from_slice(&State::fresh(words)?.encode());
    Ok(0)
}

fn try_run(
    image: &[u8],
    table: &[u8],
    state: &mut [u8],
    events: &[u8],
    answers: &mut [u8],
) -> Result<u32, Refusal> {
    let program = Program::decode(image, table)?;
    let mut machine = State::decode(&program, state)?;
    let events = Event::decode_list(&program, events)?;
    if answers.len() != Answer::WIDTH * events.len() {
        return Err(Refusal::AnswersLength);
    }
    for (event, answer) in events.iter().zip(answers.chunks_mut(Answer::WIDTH)) {
        answer.copy_from_slice(&carry_out(&program, &mut machine, event).encode());
    }
    state.copy_from_slice(&machine.encode());
    Ok(0)
}

fn try_walk(
    image: &[u8],
    table: &[u8],
    state: &[u8],
    thread: u32,
    met: &mut [u8],
) -> Result<u32, Refusal> {
    let program = Program::decode(image, table)?;
    let state = State::decode(&program, state)?;
    let thread = u8::try_from(thread).ok().and_then(Thread::new).ok_or(Refusal::WalkThread)?;
    if met.len() != MET_LENGTH {
        return Err(Refusal::WalkBuffer);
    }
    let mut threads = Vec::new();
    let ring = walk_on(&program, &state, thread, &mut threads);
    met.fill(255);
    for (byte, thread) in met.iter_mut().zip(&threads) {
        *byte = thread.number();
    }
    Ok(threads.len() as u32 + if ring { 256 } else { 0 })
}

/// The tests go by number, and within a number the first image comes first.
fn try_link(first: &[u8], second: &[u8], table: &[u8], out: &mut [u8]) -> Result<u32, Refusal> {
    let (first, second) = (Record::parts(first)?, Record::parts(second)?);
    Table::decode(table)?;
    let (first, second) = (Record::decode_list(&first)?, Record::decode_list(&second)?);
    let image = image_bytes(&linked(first, second)?);
    if out.len() != image.len() {
        return Err(Refusal::LinkedLength);
    }
    out.copy_from_slice(&image);
    Ok(0)
}
