//! A call made of the library and of the second implementation, and compared.

use crate::library;
use crate::seen::Seen;
use second::generate::{Lent, Pair};

#[derive(Clone, Copy, Debug)]
pub enum Call {
    Check,
    Fresh,
    Run,
    Walk,
}

impl Call {
    pub const ALL: [Call; 4] = [Call::Check, Call::Fresh, Call::Run, Call::Walk];

    fn of_library(self, lent: &mut Lent) -> Result<u32, String> {
        match self {
            Call::Check => library::check(lent),
            Call::Fresh => library::fresh(lent),
            Call::Run => library::run(lent),
            Call::Walk => library::walk(lent),
        }
    }

    fn of_second(self, lent: &mut Lent) -> u32 {
        let Lent { image, table, words, state, events, answers, thread, met } = lent;
        match self {
            Call::Check => second::check(image, table),
            Call::Fresh => second::fresh(image, table, words, state),
            Call::Run => second::run(image, table, state, events, answers),
            Call::Walk => second::walk(image, table, state, *thread, met),
        }
    }
}

/// Makes the call of both on the same bytes: what it returned, or in what the
/// two differ. The bytes are then as the call left them.
pub fn both(seen: &mut Seen, call: Call, lent: &mut Lent) -> Result<u32, String> {
    let state_before = lent.state.clone();
    let returned = compared(lent, |lent| call.of_library(lent), |lent| call.of_second(lent))
        .map_err(|why| format!("{call:?}: {why}"))?;
    seen.note(call, returned, &state_before, lent);
    Ok(returned)
}

/// The same for the link.
pub fn both_link(seen: &mut Seen, pair: &mut Pair) -> Result<u32, String> {
    let of_second = |pair: &mut Pair| {
        second::link(&pair.first.image, &pair.second.image, &pair.table, &mut pair.out)
    };
    let returned =
        compared(pair, library::link, of_second).map_err(|why| format!("Link: {why}"))?;
    seen.note_link(returned, pair);
    Ok(returned)
}

/// Makes a call of the library on what is lent, and of the second
/// implementation on a copy.
fn compared<L: Buffers>(
    lent: &mut L,
    of_library: impl FnOnce(&mut L) -> Result<u32, String>,
    of_second: impl FnOnce(&mut L) -> u32,
) -> Result<u32, String> {
    let mut expected = lent.clone();
    let returned = of_library(lent)?;
    let wanted = of_second(&mut expected);
    if returned != wanted {
        return Err(format!("returned {returned}, expected {wanted}"));
    }
    match differing(lent, &expected) {
        Some(buffer) => Err(format!("returned {returned} and left other bytes in {buffer}")),
        None => Ok(returned),
    }
}

/// What a call is lent: its buffers, each with its name.
trait Buffers: Clone {
    fn named(&self) -> Vec<(&'static str, &[u8])>;
}

impl Buffers for Lent {
    fn named(&self) -> Vec<(&'static str, &[u8])> {
        vec![
            ("the image", &self.image),
            ("the table", &self.table),
            ("the words", &self.words),
            ("the state", &self.state),
            ("the events", &self.events),
            ("the answers", &self.answers),
            ("the walk's buffer", &self.met),
        ]
    }
}

impl Buffers for Pair {
    fn named(&self) -> Vec<(&'static str, &[u8])> {
        vec![
            ("the first image", &self.first.image),
            ("the second image", &self.second.image),
            ("the table", &self.table),
            ("the output", &self.out),
        ]
    }
}

/// The name of a buffer that differs.
fn differing(one: &impl Buffers, other: &impl Buffers) -> Option<&'static str> {
    let mut both = one.named().into_iter().zip(other.named());
    both.find(|(one, other)| one != other).map(|((name, _), _)| name)
}
