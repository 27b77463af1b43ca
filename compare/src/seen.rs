//! What the calls of a comparison have shown, to tell an idle one from a good one.

use crate::both::Call;
use crate::faults::UnmetFaults;
use crate::groups::{locks_of_two, share_lock};
use crate::held::held_counts;
use crate::sizes::{ANSWER, BLOCKS, LOCKS, MOST_HELD, RECORD, RECORDS, THREADS};
use crate::sorts::UnmetSorts;
use crate::steps::first_steps;
use second::generate::{Lent, Pair};
use std::collections::BTreeSet;

/// What a call returns that refuses the last row of the table.
const LAST_BLOCK: u32 = 3 * 65_536 + BLOCKS as u32 - 1;

#[derive(Default)]
pub struct Seen {
    pub calls: u64,
    pub events: u64,
    refusals: [u64; 16],
    /// Of the refusals those for the lock of the table's last row alone.
    last_locks: u64,
    /// Faults that no record was refused for alone.
    faults: UnmetFaults,
    codes: [u64; 11],
    traps: [u64; 10],
    /// Sorts that no step was of, among those that Runs did as their threads' first
    /// events.
    sorts: UnmetSorts,
    /// Waits by lock.
    waits: [u64; LOCKS],
    /// EXITs by how many held signals they lost.
    exits: [u64; MOST_HELD + 1],
    /// Threads in the states that Runs left, by how many signals they held.
    held: [u64; MOST_HELD + 1],
    /// Walks with held signals damaged and nothing else: accepted, and refused
    /// for a state that is not well formed.
    damaged_held: [u64; 2],
    /// The same with lock sets damaged.
    damaged_locks: [u64; 2],
    /// Threads in the states that Runs left that were in two blocks of one group.
    pub in_two_blocks: usize,
    /// Waits, in lists that were read one by one, for a job that had been in two
    /// blocks of the group.
    group_waits_one_by_one: usize,
    /// Held signals lost in lists that were read one by one.
    lost_one_by_one: u64,
    /// Signals held by second guests, whose labels the link shifts.
    shifted_held: usize,
    pub rings: u64,
    /// Threads of the longest walk.
    pub longest_walk: u32,
    /// Pairs of images that were linked.
    pub links: u64,
    /// Of these the pairs that share a lock.
    links_of_groups: u64,
    /// And those whose second guest has a record of an opcode, by the opcode: the
    /// link shifts its labels.
    links_of_opcodes: [u64; 16],
    /// Of the refusals those of links.
    link_refusals: [u64; 16],
    /// Records of the largest linked image.
    pub largest_link: usize,
}

impl Seen {
    fn note_return(&mut self, returned: u32, table: &[u8]) {
        self.calls += 1;
        self.refusals[(returned >> 16) as usize] += 1;
        if let (LAST_BLOCK, &[.., thread, kind, lock]) = (returned, table) {
            let lock_alone =
                usize::from(thread) < THREADS && kind < 2 && usize::from(lock) >= LOCKS;
            self.last_locks += u64::from(lock_alone);
        }
    }

    /// What a call returned, was lent as its state, and left.
    pub fn note(&mut self, call: Call, returned: u32, state_before: &[u8], lent: &Lent) {
        self.note_return(returned, &lent.table);
        self.faults.note(returned, &lent.image, &lent.table);
        match call {
            Call::Run if returned == 0 => {
                first_steps(&lent.image, state_before, &lent.events)
                    .for_each(|step| self.sorts.note(&step));
                lent.answers.chunks(ANSWER).for_each(|answer| self.note_answer(answer));
                held_counts(&lent.state).for_each(|count| self.held[count] += 1);
                self.in_two_blocks += locks_of_two(&lent.image, &lent.table, &lent.state).count();
            }
            Call::Walk if returned < 65_536 => {
                self.rings += u64::from(returned >= 256);
                self.longest_walk = self.longest_walk.max(returned % 256);
            }
            _ => {}
        }
    }

    fn note_answer(&mut self, answer: &[u8]) {
        self.events += 1;
        self.codes[usize::from(answer[0])] += 1;
        match answer[0] {
            4 => self.waits[usize::from(answer[1])] += 1,
            7 => self.exits[usize::from(answer[1])] += 1,
            8 => self.traps[usize::from(answer[1])] += 1,
            _ => {}
        }
    }

    /// What a walk returned that was handed damaged held signals and else what
    /// it accepts.
    pub fn note_damaged_held(&mut self, returned: u32) {
        self.damaged_held[usize::from(returned >> 16 == 6)] += 1;
    }

    /// The same for lock sets.
    pub fn note_damaged_locks(&mut self, returned: u32) {
        self.damaged_locks[usize::from(returned >> 16 == 6)] += 1;
    }

    /// The answers to a list whose one-by-one reading was the same, and how many
    /// waits left out of it were for a job in two blocks of the group.
    pub fn note_one_by_one(&mut self, answers: &[u8], group_waits: usize) {
        self.group_waits_one_by_one += group_waits;
        let exits = answers.chunks(ANSWER).filter(|answer| answer[0] == 7);
        self.lost_one_by_one += exits.map(|answer| u64::from(answer[1])).sum::<u64>();
    }

    /// The state that a second guest left on the linked image.
    pub fn note_shifted(&mut self, state: &[u8]) {
        self.shifted_held += held_counts(state).sum::<usize>();
    }

    pub fn note_link(&mut self, returned: u32, pair: &Pair) {
        self.note_return(returned, &pair.table);
        self.link_refusals[(returned >> 16) as usize] += 1;
        if returned == 0 {
            let Pair { first, second, table, .. } = pair;
            self.links += 1;
            self.links_of_groups += u64::from(share_lock(table, &first.image, &second.image));
            let opcodes: BTreeSet<u8> =
                second.image.chunks(RECORD).map(|record| record[0]).collect();
            opcodes.iter().for_each(|&opcode| self.links_of_opcodes[usize::from(opcode)] += 1);
            self.largest_link = self.largest_link.max(pair.out.len() / RECORD);
        }
    }

    /// How many held signals EXITs lost.
    pub fn lost(&self) -> u64 {
        (0..).zip(self.exits).map(|(lost, exits)| lost * exits).sum()
    }

    /// How many jobs a subtraction ended.
    pub fn below_zero(&self) -> u64 {
        self.traps[7]
    }

    /// How many jobs a division ended.
    pub fn by_zero(&self) -> u64 {
        self.traps[8]
    }

    /// How many jobs a packed decimal ended.
    pub fn not_decimal(&self) -> u64 {
        self.traps[9]
    }

    /// What should have been seen in a comparison of many cases and was not.
    pub fn missing(&self) -> Vec<String> {
        let of_opcodes = [self.sorts.words(), self.faults.words()].concat();
        [of_opcodes, self.missing_numbers(), self.missing_sights()].concat()
    }

    fn missing_numbers(&self) -> Vec<String> {
        let sorts = [
            ("refusal", 1, &self.refusals[1..]),
            ("code", 1, &self.codes[1..]),
            ("trap", 1, &self.traps[1..]),
            ("wait for lock", 0, &self.waits[..]),
            ("EXIT by signals lost,", 0, &self.exits[..]),
            ("thread by signals held,", 0, &self.held[..]),
            ("refusal of a link", 1, &self.link_refusals[1..=4]),
            ("refusal of a link", 13, &self.link_refusals[13..]),
            ("link of a second guest with opcode", 1, &self.links_of_opcodes[1..]),
        ];
        let mut missing: Vec<String> = Vec::new();
        for (sort, first, counts) in sorts {
            let unseen = (first..).zip(counts).filter(|(_, &count)| count == 0);
            missing.extend(unseen.map(|(number, _)| format!("{sort} {number}")));
        }
        missing
    }

    fn missing_sights(&self) -> Vec<String> {
        let sights = [
            (self.last_locks > 0, "a refusal for the last row's lock alone".into()),
            (self.in_two_blocks > 0, "a thread in two blocks of one group".into()),
            (self.damaged_locks[0] > 0, "other lock sets that are accepted".into()),
            (self.damaged_locks[1] > 0, "damaged lock sets that are refused".into()),
            (self.group_waits_one_by_one > 0, "waits for a group one by one".into()),
            (self.links_of_groups > 0, "a link of guests that share a lock".into()),
            (self.damaged_held[0] > 0, "other held signals that are accepted".into()),
            (self.damaged_held[1] > 0, "damaged held signals that are refused".into()),
            (self.lost_one_by_one > 0, "held signals lost one by one".into()),
            (self.shifted_held > 0, "held signals with labels shifted".into()),
            (self.rings > 0 && self.longest_walk == 8, "a ring and a walk of 8 threads".into()),
            (self.largest_link == RECORDS, format!("a link of {RECORDS} records")),
        ];
        let unseen = sights.into_iter().filter(|(seen, _)| !seen);
        unseen.map(|(_, what)| what).collect()
    }
}
