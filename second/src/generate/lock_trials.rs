//! Trials that generated machines meet every case of grouped blocks.

use super::trials::{begun, each_event, faults_met, u16_at};
use super::{damage, only_locks_changed, pair, table, Lent, Random};
use crate::check;
use crate::events::{Answer, Event};
use crate::image::Program;
use crate::sorts::{Block, Thread};
use crate::state::State;
use crate::statement::Statement;
use crate::step::carry_out;
use std::collections::BTreeSet;

/// The lock of each block.
fn locks(table: &[u8]) -> Vec<u8> {
    table.chunks(3).map(|row| row[2]).collect()
}

#[test]
fn tables_with_and_without_groups_are_drawn() {
    let random = &mut Random::new(4);
    let mut cases = BTreeSet::new();
    for _ in 0..100 {
        let locks = locks(&table(random));
        let used: BTreeSet<u8> = locks.iter().copied().collect();
        cases.insert((locks == (0..16).collect::<Vec<u8>>(), used.len()));
    }
    // Whether every block has the lock of its number, and how many locks guard
    // a block.
    for case in [(true, 16), (false, 16), (false, 1), (false, 2), (false, 3), (false, 4)] {
        assert!(cases.contains(&case), "{case:?}");
    }
}

#[test]
fn linked_guests_often_have_a_lock_in_common() {
    let shared = (0..100).map(pair).filter(|pair| {
        let locks = locks(&pair.table);
        let of = |image: &[u8]| {
            let blocks = image.chunks(84).map(|record| usize::from(record[1]));
            blocks.map(|block| locks[block]).collect::<BTreeSet<u8>>()
        };
        !of(&pair.first.image).is_disjoint(&of(&pair.second.image))
    });
    assert!((30..90).contains(&shared.count()));
}

/// What the events of a machine meet.
#[derive(Default)]
struct Met {
    /// Whether the waiting thread runs, whether the holder's job has been in
    /// the block asked for, and whether in two blocks of the group.
    waits: BTreeSet<[bool; 3]>,
    /// How often a job entered a further block of a group it held.
    further: usize,
    /// For each thread the blocks its job has been in.
    been_in: [Vec<Block>; Thread::COUNT],
}

/// The block the thread's next step would enter, if it would enter one.
fn wanted(program: &Program, state: &State, thread: Thread) -> Option<Block> {
    let signal = match state.job(thread) {
        Some(job) => match program.record(job.label).statement {
            Statement::SendDirect { signal, .. } | Statement::Call { signal, .. } => signal,
            _ => return None,
        },
        None => state.trees[state.first_tree(thread)?].pending[0].label,
    };
    Some(program.block(signal))
}

impl Met {
    fn step(&mut self, program: &Program, state: &mut State, thread: Thread) {
        let wanted = wanted(program, state, thread);
        let before = state.job(thread).map(|job| job.locks);
        let answer = carry_out(program, state, &Event::Step(thread));
        let Some(block) = wanted else {
            return;
        };
        let been_in = &mut self.been_in[thread.index()];
        match (answer, before) {
            (Answer::Waiting(lock), before) => {
                let holder = state.holder(lock).unwrap();
                let its = &self.been_in[holder.index()];
                let of_group = its.iter().filter(|&&block| program.table.lock(block) == lock);
                let twice = of_group.count() > 1;
                self.waits.insert([before.is_some(), its.contains(&block), twice]);
            }
            (Answer::Started, _) => *been_in = vec![block],
            (Answer::MovedOn, Some(before)) if !been_in.contains(&block) => {
                been_in.push(block);
                self.further += usize::from(before.holds(program.table.lock(block)));
            }
            _ => {}
        }
    }
}

#[test]
fn jobs_enter_further_blocks_of_their_groups_while_others_wait() {
    let mut met = Met::default();
    each_event(0..200, |program, state, event| {
        if let Event::Step(thread) = *event {
            met.step(program, state, thread);
        } else {
            carry_out(program, state, event);
        }
    });
    assert_eq!(met.waits.len(), 8);
    assert!(met.further > 200);
}

/// What damage does to lock sets; at times they stay well formed.
const FAULTS: [&str; 7] = [
    "none",
    "a lock in two sets",
    "no lock for the label",
    "the number of the label's block for its lock",
    "no lock for a return label",
    "the number of a return label's block for its lock",
    "a lock of an idle thread",
];

fn holds(thread: &[u8], lock: u8) -> bool {
    u16_at(thread, 2) >> lock & 1 == 1
}

/// What is wrong with the lock set of a thread by itself.
fn own_fault(lent: &Lent, thread: &[u8]) -> Option<&'static str> {
    if thread[..2] == [255, 255] {
        return (thread[2..4] != [0, 0]).then_some(FAULTS[6]);
    }
    let returns = (0..usize::from(thread[4])).map(|place| 5 + 2 * place);
    [0].into_iter().chain(returns).find_map(|place| {
        let block = lent.image[84 * usize::from(u16_at(thread, place)) + 1];
        let lock = lent.table[3 * usize::from(block) + 2];
        match (holds(thread, lock), holds(thread, block), place) {
            (true, _, _) => None,
            (false, false, 0) => Some(FAULTS[2]),
            (false, true, 0) => Some(FAULTS[3]),
            (false, false, _) => Some(FAULTS[4]),
            (false, true, _) => Some(FAULTS[5]),
        }
    })
}

/// What is wrong with the lock sets, if anything is.
fn fault(lent: &Lent) -> Option<&'static str> {
    let mut threads = lent.state[512..2_816].chunks(288);
    let holders = |lock| threads.clone().filter(|thread| holds(thread, lock)).count();
    let twice = (0..16).any(|lock| holders(lock) > 1).then_some(FAULTS[1]);
    threads.find_map(|thread| own_fault(lent, thread)).or(twice)
}

#[test]
fn damaged_lock_sets_have_every_fault_and_are_refused() {
    assert_eq!(faults_met(5, only_locks_changed, fault), BTreeSet::from(FAULTS));
}

#[test]
fn damaged_tables_are_refused_by_their_length_or_first_faulty_block() {
    let random = &mut Random::new(6);
    let whole = begun(0);
    let (mut lengths, mut last_locks) = (BTreeSet::new(), BTreeSet::new());
    for _ in 0..2_000 {
        let mut lent = whole.clone();
        damage(random, &mut lent);
        let (length, mut rows) = (lent.table.len(), lent.table.chunks_exact(3));
        let faulty = rows.position(|row| row[0] > 7 || row[1] > 1 || row[2] > 15);
        let expected = match (length, faulty) {
            (48, None) => 0,
            (48, Some(block)) => 3 * 65_536 + block as u32,
            _ => 2 * 65_536,
        };
        assert_eq!(check(&whole.image, &lent.table), expected);
        lengths.insert(length);
        last_locks.extend(lent.table.get(47).copied());
    }
    assert!(lengths.is_superset(&BTreeSet::from([0, 32, 45, 47, 48, 49, 51, 64])));
    assert!(last_locks.is_superset(&BTreeSet::from([15, 16, 255])));
}
