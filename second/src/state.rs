//! The machine state: shared words, threads and job trees.

use crate::bytes::{Reader, Writer};
use crate::form::well_formed;
use crate::image::Program;
use crate::job::Job;
use crate::refusal::Refusal;
use crate::sorts::{Block, Lock, Thread};
use crate::tree::Tree;

#[derive(Clone, Debug, PartialEq, Eq)]
pub struct State {
    /// Word w of block b is number 16 x b + w.
    pub words: Vec<u16>,
    /// For each thread its job, none while it is idle.
    pub jobs: Vec<Option<Job>>,
    /// In list order.
    pub trees: Vec<Tree>,
}

impl State {
    pub const LENGTH: usize = 9_633;
    const WORDS: usize = Block::COUNT * Block::WORDS;
    /// Bytes of the shared words.
    pub const WORDS_LENGTH: usize = 2 * State::WORDS;

    /// All threads idle, no trees, these 512 bytes as shared words.
    pub fn fresh(words: &[u8]) -> Result<State, Refusal> {
        if words.len() != State::WORDS_LENGTH {
            return Err(Refusal::WordsLength);
        }
        let words = State::read_words(&mut Reader::new(words));
        Ok(State { words, jobs: vec![None; Thread::COUNT], trees: Vec::new() })
    }

    pub fn decode(program: &Program, bytes: &[u8]) -> Result<State, Refusal> {
        State::test_length(bytes)?;
        State::read(program, Reader::new(bytes))
            .filter(|state| well_formed(program, state))
            .ok_or(Refusal::StateForm)
    }

    pub fn test_length(bytes: &[u8]) -> Result<(), Refusal> {
        if bytes.len() == State::LENGTH {
            Ok(())
        } else {
            Err(Refusal::StateLength)
        }
    }

    fn read(program: &Program, mut reader: Reader) -> Option<State> {
        let words = State::read_words(&mut reader);
        let jobs = Thread::all()
            .map(|_| Job::read(reader.part(Job::WIDTH), program))
            .collect::<Option<_>>()?;
        let trees = reader.list(Tree::LIMIT, Tree::WIDTH, |part| Tree::read(part, program))?;
        Some(State { words, jobs, trees })
    }

    fn read_words(reader: &mut Reader) -> Vec<u16> {
        (0..State::WORDS).map(|_| reader.pair()).collect()
    }

    pub fn encode(&self) -> Vec<u8> {
        let mut writer = Writer::default();
        for &word in &self.words {
            writer.pair(word);
        }
        for job in &self.jobs {
            Job::write(job.as_ref(), &mut writer);
        }
        writer.list(Tree::LIMIT, Tree::WIDTH, &self.trees, |writer, tree| tree.write(writer));
        writer.bytes
    }

    pub fn job(&self, thread: Thread) -> Option<&Job> {
        self.jobs[thread.index()].as_ref()
    }

    /// The place in the list of the first tree of the thread's queue; while
    /// the thread runs, its job's own tree.
    pub fn first_tree(&self, thread: Thread) -> Option<usize> {
        self.trees.iter().position(|tree| tree.thread == thread)
    }

    /// The thread that holds the lock.
    pub fn holder(&self, lock: Lock) -> Option<Thread> {
        Thread::all().find(|&thread| self.job(thread).is_some_and(|job| job.locks.holds(lock)))
    }
}
