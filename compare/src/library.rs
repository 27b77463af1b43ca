//! The proved library behind safe functions.

use second::generate::{Lent, Pair};

extern "C" {
    fn plex_check(image: *const u8, image_len: usize, table: *const u8, table_len: usize) -> u32;
    fn plex_fresh(
        image: *const u8,
        image_len: usize,
        table: *const u8,
        table_len: usize,
        words: *const u8,
        words_len: usize,
        state: *mut u8,
        state_len: usize,
    ) -> u32;
    fn plex_run(
        image: *const u8,
        image_len: usize,
        table: *const u8,
        table_len: usize,
        state: *mut u8,
        state_len: usize,
        events: *const u8,
        events_len: usize,
        answers: *mut u8,
        answers_len: usize,
    ) -> u32;
    fn plex_walk(
        image: *const u8,
        image_len: usize,
        table: *const u8,
        table_len: usize,
        state: *const u8,
        state_len: usize,
        thread: u32,
        met: *mut u8,
        met_len: usize,
    ) -> u32;
    fn plex_link(
        first: *const u8,
        first_len: usize,
        second: *const u8,
        second_len: usize,
        table: *const u8,
        table_len: usize,
        out: *mut u8,
        out_len: usize,
    ) -> u32;
}

/// Bytes on both sides of a lent buffer that no call may alter.
const MARGIN: usize = 64;
const UNTOUCHED: u8 = 0xA5;

/// A copy of a buffer between two margins. Even what is lent to be read alone
/// is memory that could be written, so that a write would show.
struct Guarded {
    bytes: Vec<u8>,
    length: usize,
}

impl Guarded {
    fn new(lent: &[u8]) -> Guarded {
        let margin = [UNTOUCHED; MARGIN];
        Guarded { bytes: [&margin, lent, &margin].concat(), length: lent.len() }
    }

    fn pointer(&mut self) -> *mut u8 {
        self.bytes[MARGIN..].as_mut_ptr()
    }

    /// Copies the bytes back as the call left them; whether the margins are as
    /// they were.
    fn give_back(self, lent: &mut [u8]) -> bool {
        let (before, rest) = self.bytes.split_at(MARGIN);
        let (left, after) = rest.split_at(self.length);
        lent.copy_from_slice(left);
        before.iter().chain(after).all(|&byte| byte == UNTOUCHED)
    }
}

/// What a call returned, or that it wrote beside a buffer.
type Returned = Result<u32, String>;

/// Makes a call on guarded copies of these buffers. The copies are memory of
/// their own, so no two that a call is handed overlap.
fn guarded<const N: usize>(
    buffers: [&mut Vec<u8>; N],
    call: impl FnOnce(&mut [Guarded; N]) -> u32,
) -> Returned {
    let mut copies = buffers.each_ref().map(|buffer| Guarded::new(buffer));
    let result = call(&mut copies);
    let mut all_kept = true;
    for (copy, buffer) in copies.into_iter().zip(buffers) {
        all_kept &= copy.give_back(buffer);
    }
    all_kept.then_some(result).ok_or("the library wrote beside a lent buffer".into())
}

pub fn check(lent: &mut Lent) -> Returned {
    guarded([&mut lent.image, &mut lent.table], |[image, table]| {
        // SAFETY: each pointer is to memory of its length, and no two overlap.
        unsafe { plex_check(image.pointer(), image.length, table.pointer(), table.length) }
    })
}

pub fn fresh(lent: &mut Lent) -> Returned {
    let buffers = [&mut lent.image, &mut lent.table, &mut lent.words, &mut lent.state];
    guarded(buffers, |[image, table, words, state]| {
        // SAFETY: as for check.
        unsafe {
            plex_fresh(
                image.pointer(),
                image.length,
                table.pointer(),
                table.length,
                words.pointer(),
                words.length,
                state.pointer(),
                state.length,
            )
        }
    })
}

pub fn run(lent: &mut Lent) -> Returned {
    let Lent { image, table, state, events, answers, .. } = lent;
    guarded([image, table, state, events, answers], |[image, table, state, events, answers]| {
        // SAFETY: as for check.
        unsafe {
            plex_run(
                image.pointer(),
                image.length,
                table.pointer(),
                table.length,
                state.pointer(),
                state.length,
                events.pointer(),
                events.length,
                answers.pointer(),
                answers.length,
            )
        }
    })
}

pub fn walk(lent: &mut Lent) -> Returned {
    let Lent { image, table, state, thread, met, .. } = lent;
    guarded([image, table, state, met], |[image, table, state, met]| {
        // SAFETY: as for check.
        unsafe {
            plex_walk(
                image.pointer(),
                image.length,
                table.pointer(),
                table.length,
                state.pointer(),
                state.length,
                *thread,
                met.pointer(),
                met.length,
            )
        }
    })
}

pub fn link(pair: &mut Pair) -> Returned {
    let Pair { first, second, table, out, .. } = pair;
    let buffers = [&mut first.image, &mut second.image, table, out];
    guarded(buffers, |[first, second, table, out]| {
        // SAFETY: as for check.
        unsafe {
            plex_link(
                first.pointer(),
                first.length,
                second.pointer(),
                second.length,
                table.pointer(),
                table.length,
                out.pointer(),
                out.length,
            )
        }
    })
}
