//! Signals and job trees.

use crate::bytes::{Reader, Writer};
use crate::image::Program;
use crate::registers::Registers;
use crate::sorts::{Label, Thread};

/// A signal with its values: pending in a tree, held by a job or arriving.
#[derive(Clone, Debug, PartialEq, Eq)]
pub struct Signal {
    pub label: Label,
    pub values: Vec<u16>,
}

impl Signal {
    pub const WIDTH: usize = 53;
    /// Values of one signal: as many as there are registers.
    pub const VALUES: usize = Registers::COUNT;

    pub fn read(mut reader: Reader, program: &Program) -> Option<Signal> {
        let label = program.label(reader.pair())?;
        let values = reader.list(Signal::VALUES, 2, |mut part| Some(part.pair()))?;
        Some(Signal { label, values })
    }

    pub fn write(&self, writer: &mut Writer) {
        writer.pair(self.label.number());
        writer.list(Signal::VALUES, 2, &self.values, |writer, &value| writer.pair(value));
    }
}

/// A job tree: a thread's number and the pending signals, oldest first.
#[derive(Clone, Debug, PartialEq, Eq)]
pub struct Tree {
    pub thread: Thread,
    pub pending: Vec<Signal>,
}

impl Tree {
    pub const WIDTH: usize = 426;
    /// Trees of one machine.
    pub const LIMIT: usize = 16;
    /// Pending signals of one tree.
    pub const PENDING: usize = 8;

    pub fn read(mut reader: Reader, program: &Program) -> Option<Tree> {
        let thread = Thread::new(reader.byte())?;
        let pending =
            reader.list(Tree::PENDING, Signal::WIDTH, |part| Signal::read(part, program))?;
        Some(Tree { thread, pending })
    }

    pub fn write(&self, writer: &mut Writer) {
        writer.byte(self.thread.number());
        writer.list(Tree::PENDING, Signal::WIDTH, &self.pending, |writer, signal| {
            signal.write(writer)
        });
    }
}
