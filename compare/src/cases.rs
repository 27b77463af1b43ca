//! What is compared for a seed.

use crate::both::{both, Call};
use crate::groups::locks_of_two;
use crate::seen::Seen;
use crate::sizes::{ANSWER, BLOCKS, EVENT, LOCKS, RECORD, ROW, THREADS};
use second::generate::{damage, events, lent, only_held_changed, only_locks_changed, Lent, Random};
use second::second_order;

/// Events of one Run.
const LIMIT: usize = 1_024;
/// Damaged copies of what a case lends, each given to every call but the link.
const DAMAGED: usize = 6;
/// The fewest events of a long list.
const LONG: usize = 10_000;

/// A generated machine: check, Fresh, its events in a few Runs, the walks from
/// the states between, and damaged calls.
pub fn short_case(seen: &mut Seen, seed: u64) -> Result<(), String> {
    let random = &mut Random::new(!seed);
    let mut lent = lent(seed);
    both(seen, Call::Check, &mut lent)?;
    both(seen, Call::Fresh, &mut lent)?;
    let list = std::mem::take(&mut lent.events);
    let part = EVENT * random.between(1, LIMIT);
    for events in list.chunks(part).chain([&[][..]]) {
        hand_over(&mut lent, events);
        both(seen, Call::Run, &mut lent)?;
        walks(seen, &mut lent)?;
        damaged_calls(seen, random, &lent)?;
    }
    Ok(())
}

/// A generated machine's events, each in a Run of its own: the states between all
/// of them are compared, and what every step does is seen.
pub fn single_case(seen: &mut Seen, seed: u64) -> Result<(), String> {
    let mut lent = lent(seed);
    both(seen, Call::Fresh, &mut lent)?;
    let list = std::mem::take(&mut lent.events);
    for event in list.chunks(EVENT) {
        hand_over(&mut lent, event);
        both(seen, Call::Run, &mut lent)?;
    }
    Ok(())
}

/// Lends these events, and answers of the right length that hold other bytes.
pub fn hand_over(lent: &mut Lent, events: &[u8]) {
    lent.events = events.to_vec();
    lent.answers = vec![0xEE; ANSWER * (events.len() / EVENT)];
}

fn walks(seen: &mut Seen, lent: &mut Lent) -> Result<(), String> {
    for thread in 0..THREADS as u32 {
        lent.thread = thread;
        lent.met.fill(7);
        both(seen, Call::Walk, lent)?;
    }
    Ok(())
}

fn damaged_calls(seen: &mut Seen, random: &mut Random, good: &Lent) -> Result<(), String> {
    for _ in 0..DAMAGED {
        let mut damaged = good.clone();
        damage(random, &mut damaged);
        for call in Call::ALL {
            let returned = both(seen, call, &mut damaged.clone())?;
            if matches!(call, Call::Walk) {
                note_damaged(seen, returned, good, &damaged);
            }
        }
    }
    Ok(())
}

/// What a walk returned, if it was lent other held signals or other lock sets
/// than this good one, and nothing else that is different.
fn note_damaged(seen: &mut Seen, returned: u32, good: &Lent, damaged: &Lent) {
    if (good.thread, &good.met) != (damaged.thread, &damaged.met) {
        return;
    }
    if only_held_changed(good, damaged) {
        seen.note_damaged_held(returned);
    } else if only_locks_changed(good, damaged) {
        seen.note_damaged_locks(returned);
    }
}

/// A long event list in many Runs, refused ones between them, and then its
/// one-by-one reading: the same state bytes, and the same answer to each event.
pub fn long_case(seen: &mut Seen, seed: u64) -> Result<(), String> {
    let random = &mut Random::new(!seed);
    let mut lent = lent(seed);
    both(seen, Call::Fresh, &mut lent)?;
    let begun = lent.state.clone();
    let (mut list, mut answers, mut group_waits) = (Vec::new(), Vec::new(), 0);
    while list.len() < EVENT * LONG {
        let more = events(random, &lent.image, &lent.table, &lent.state);
        hand_over(&mut lent, &more);
        refused_run(seen, random, &lent)?;
        let locks: Vec<u8> = locks_of_two(&lent.image, &lent.table, &lent.state).collect();
        both(seen, Call::Run, &mut lent)?;
        group_waits += first_waits(&lent.answers, &locks);
        list.extend_from_slice(&lent.events);
        answers.extend_from_slice(&lent.answers);
    }
    let left = std::mem::replace(&mut lent.state, begun);
    let (order, expected) = second_order(&list, &answers);
    let again = run_all(seen, &mut lent, &order)?;
    if again != expected {
        return Err("an event has another answer one by one".into());
    }
    if lent.state != left {
        return Err("the jobs one by one leave another state".into());
    }
    seen.note_one_by_one(&expected, group_waits);
    Ok(())
}

/// The waits for these locks before any job has ended.
fn first_waits(answers: &[u8], locks: &[u8]) -> usize {
    let before = answers.chunks(ANSWER).take_while(|answer| !matches!(answer[0], 7..=9));
    before.filter(|answer| answer[0] == 4 && locks.contains(&answer[1])).count()
}

/// A damaged Run; if it is refused, it counts no event, and if not, it is no
/// part of the list.
fn refused_run(seen: &mut Seen, random: &mut Random, good: &Lent) -> Result<(), String> {
    let mut damaged = good.clone();
    damage(random, &mut damaged);
    both(seen, Call::Run, &mut damaged).map(|_| ())
}

/// The answers to a list of any length, in as few Runs as there may be.
fn run_all(seen: &mut Seen, lent: &mut Lent, list: &[u8]) -> Result<Vec<u8>, String> {
    let mut answers = Vec::new();
    for events in list.chunks(EVENT * LIMIT) {
        hand_over(lent, events);
        both(seen, Call::Run, lent)?;
        answers.extend_from_slice(&lent.answers);
    }
    Ok(answers)
}

/// Groups of two blocks, each on a thread of its own: one block sends to the
/// other of the next group, so that the threads come to wait in long rows and at
/// last in a ring.
pub fn waiting_case(seen: &mut Seen, seed: u64) -> Result<(), String> {
    let random = &mut Random::new(!seed);
    let mut lent = lent(seed);
    lent.image = (0..THREADS as u8).flat_map(sender).collect();
    lent.table = (0..BLOCKS).flat_map(row).collect();
    both(seen, Call::Fresh, &mut lent)?;
    for _ in 0..4 * THREADS {
        let thread = random.below(THREADS) as u8;
        hand_over(&mut lent, &[arrival(2 * thread), step(thread)].concat());
        both(seen, Call::Run, &mut lent)?;
        walks(seen, &mut lent)?;
    }
    Ok(())
}

/// Blocks whose numbers differ by 8 are a group. Its lock has no number of theirs.
fn row(block: usize) -> [u8; ROW] {
    let thread = block % THREADS;
    [thread as u8, 1, (LOCKS - 1 - thread) as u8]
}

/// A record of each block of a group: SEND direct to the next group's second,
/// entry external, and EXIT, entry direct.
fn sender(thread: u8) -> Vec<u8> {
    let threads = THREADS as u8;
    let next = (thread + 1) % threads;
    let send = [5, thread, 3, 0, 2 * next + 1];
    let exit = [10, threads + thread, 1];
    [filled(&send, RECORD), filled(&exit, RECORD)].concat()
}

fn arrival(label: u8) -> Vec<u8> {
    filled(&[1, 0, label], EVENT)
}

fn step(thread: u8) -> Vec<u8> {
    filled(&[2, thread], EVENT)
}

/// These bytes and zero bytes after them.
fn filled(front: &[u8], length: usize) -> Vec<u8> {
    let mut bytes = front.to_vec();
    bytes.resize(length, 0);
    bytes
}
