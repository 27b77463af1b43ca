//! What the trials build their machines from.

use crate::encode::{events_bytes, image_bytes};
use crate::events::Event;
use crate::image::{Entry, Record};
use crate::sorts::{Block, Label, Thread};
use crate::statement::{Operand, Statement};
use crate::tree::Signal;
use crate::{fresh, run, second_order, walk};

/// Bytes of one block's row in the table.
pub const ROW: usize = 3;
/// Every block is FD, on thread 0 and with lock 0.
pub const ZERO_TABLE: [u8; 48] = [0; 48];
pub const STATE_LENGTH: usize = 9_633;
const THREADS: usize = 512;
pub const TREES: usize = 2_816;
/// Where in a thread record the held signals begin, with their count.
pub const HELD: usize = 75;
/// A thread record of an idle thread.
pub const IDLE: [u8; 288] = {
    let mut record = [0; 288];
    (record[0], record[1]) = (255, 255);
    record
};

pub fn at(number: u16) -> Label {
    Label::below(number, 512).unwrap()
}

pub fn record(block: u8, entry: Entry, statement: Statement) -> Record {
    Record { block: Block::new(block).unwrap(), entry, statement }
}

pub fn exit(block: u8, entry: Entry) -> Record {
    record(block, entry, Statement::Exit)
}

pub fn call(signal: u16, back: u16) -> Statement {
    Statement::Call { signal: at(signal), data: Vec::new(), back: at(back) }
}

pub fn send(signal: u16, on: u16) -> Statement {
    Statement::SendBuffered { signal: at(signal), data: Vec::new(), on: at(on) }
}

pub fn hold(signal: u16, data: Vec<Operand>, on: u16) -> Statement {
    Statement::SendJobTree { signal: at(signal), data, on: at(on) }
}

pub fn arrival(label: u16, values: &[u16]) -> Event {
    Event::Arrival(Signal { label: at(label), values: values.to_vec() })
}

pub fn step(thread: u8) -> Event {
    Event::Step(Thread::new(thread).unwrap())
}

pub fn cut(thread: u8) -> Event {
    Event::Cut(Thread::new(thread).unwrap())
}

/// A machine that starts fresh with zero words.
pub struct Bench {
    pub image: Vec<u8>,
    pub table: [u8; 48],
    pub state: Vec<u8>,
}

impl Bench {
    /// Blocks 0, 1, .. on the given threads and of the given kinds, the others
    /// zero there; each block has the lock of its number.
    pub fn new(rows: &[[u8; 2]], records: &[Record]) -> Bench {
        let mut table = ZERO_TABLE;
        for (row, given) in table.chunks_mut(ROW).zip(rows) {
            row[..2].copy_from_slice(given);
        }
        (0..16).for_each(|block| table[ROW * block + 2] = block as u8);
        Bench::on(image_bytes(records), table)
    }

    /// The bench with this lock for these blocks; it has had no events yet.
    pub fn grouped(mut self, lock: u8, blocks: &[usize]) -> Bench {
        blocks.iter().for_each(|block| self.table[ROW * block + 2] = lock);
        self
    }

    pub fn on(image: Vec<u8>, table: [u8; 48]) -> Bench {
        let mut bench = Bench { image, table, state: vec![1; STATE_LENGTH] };
        assert_eq!(fresh(&bench.image, &bench.table, &[0; 512], &mut bench.state), 0);
        bench
    }

    pub fn run(&mut self, events: &[Event]) -> Vec<[u8; 2]> {
        let mut answers = vec![[0; 2]; events.len()];
        let lent = (&events_bytes(events), answers.as_flattened_mut());
        assert_eq!(run(&self.image, &self.table, &mut self.state, lent.0, lent.1), 0);
        answers
    }

    /// Runs the events; their jobs one by one leave the same state and answers.
    pub fn run_both_orders(&mut self, events: &[Event]) -> Vec<[u8; 2]> {
        let mut state = self.state.clone();
        let answers = self.run(events);
        let (events, expected) = second_order(&events_bytes(events), answers.as_flattened());
        let mut second = vec![0; expected.len()];
        assert_eq!(run(&self.image, &self.table, &mut state, &events, &mut second), 0);
        assert!(second == expected && state == self.state);
        answers
    }

    /// Starts a job on thread 0 and steps it this many times.
    pub fn job(&mut self, values: &[u16], steps: usize) -> Vec<[u8; 2]> {
        let mut events = vec![arrival(0, values), step(0)];
        events.extend(vec![step(0); steps]);
        self.run(&events).split_off(2)
    }

    pub fn thread(&self, number: usize) -> &[u8] {
        &self.state[THREADS + 288 * number..][..288]
    }

    pub fn walk(&self, thread: u32) -> (u32, [u8; 8]) {
        let mut met = [0; 8];
        (walk(&self.image, &self.table, &self.state, thread, &mut met), met)
    }
}
