//! A running thread: its label, locks, return labels, registers and held signals.

use crate::bytes::{Reader, Writer};
use crate::image::Program;
use crate::registers::Registers;
use crate::sorts::{Label, Lock};
use crate::tree::Signal;
use std::ops::Range;

#[derive(Clone, Copy, Debug, PartialEq, Eq)]
pub struct LockSet(u16);

impl LockSet {
    pub fn holds(self, lock: Lock) -> bool {
        self.0 & lock.bit() != 0
    }

    pub fn with(self, lock: Lock) -> LockSet {
        LockSet(self.0 | lock.bit())
    }

    pub fn without(self, lock: Lock) -> LockSet {
        LockSet(self.0 & !lock.bit())
    }

    pub fn meets(self, other: LockSet) -> bool {
        self.0 & other.0 != 0
    }
}

/// What a thread has while it runs. An idle thread has no job.
#[derive(Clone, Debug, PartialEq, Eq)]
pub struct Job {
    pub label: Label,
    pub locks: LockSet,
    /// Oldest first.
    pub returns: Vec<Label>,
    pub registers: Registers,
    /// The signals that are to found new trees at EXIT, oldest first.
    pub held: Vec<Signal>,
}

impl Job {
    /// Bytes of a thread record.
    pub const WIDTH: usize = 288;
    /// Where in a thread record the lock set stands.
    pub const LOCKS: Range<usize> = 2..4;
    /// Return labels of one thread.
    pub const RETURNS: usize = 8;
    /// Held signals of one thread.
    pub const HELD: usize = 4;
    /// Where in a thread record the count of held signals stands; they end it.
    pub const HELD_START: usize = Job::WIDTH - 1 - Job::HELD * Signal::WIDTH;
    /// The label field of an idle thread.
    const IDLE: u16 = 65_535;

    /// A job at its first label, holding the lock of its block only.
    pub fn begun(label: Label, lock: Lock, values: &[u16]) -> Job {
        let (locks, registers) = (LockSet(lock.bit()), Registers::filled(values));
        Job { label, locks, returns: Vec::new(), registers, held: Vec::new() }
    }

    pub fn at(self, label: Label) -> Job {
        Job { label, ..self }
    }

    pub fn taking(self, lock: Lock) -> Job {
        Job { locks: self.locks.with(lock), ..self }
    }

    pub fn calling(mut self, back: Label) -> Job {
        self.returns.push(back);
        self
    }

    pub fn holding(mut self, signal: Signal) -> Job {
        self.held.push(signal);
        self
    }

    pub fn with(self, registers: Registers) -> Job {
        Job { registers, ..self }
    }

    /// A thread record: `None` if it is malformed, `Some(None)` if it is idle.
    pub fn read(mut reader: Reader, program: &Program) -> Option<Option<Job>> {
        let label = reader.pair();
        if label == Job::IDLE {
            return reader.rest_is_zero().then_some(None);
        }
        let label = program.label(label)?;
        let locks = LockSet(reader.pair());
        let returns = reader.list(Job::RETURNS, 2, |mut part| program.label(part.pair()))?;
        let registers = Registers::read(&mut reader)?;
        let held = reader.list(Job::HELD, Signal::WIDTH, |part| Signal::read(part, program))?;
        Some(Some(Job { label, locks, returns, registers, held }))
    }

    pub fn write(job: Option<&Job>, writer: &mut Writer) {
        let Some(job) = job else {
            writer.pair(Job::IDLE);
            return writer.zeros(Job::WIDTH - 2);
        };
        writer.pair(job.label.number());
        writer.pair(job.locks.0);
        writer.list(Job::RETURNS, 2, &job.returns, |writer, label| writer.pair(label.number()));
        job.registers.write(writer);
        writer.list(Job::HELD, Signal::WIDTH, &job.held, |writer, signal| signal.write(writer));
    }
}
