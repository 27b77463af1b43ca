//! What is compared of the link for a seed.

use crate::both::{both, both_link, Call};
use crate::cases::hand_over;
use crate::seen::Seen;
use crate::sizes::{EVENT, RECORD, STATE};
use second::generate::{damage_pair, pair, Guest, Lent, Pair, Random};
use second::{relocated_events, relocated_state};

/// Damaged copies of a pair, each given to the link.
const DAMAGED: usize = 12;
/// The most Runs of a guest on the linked image.
const MOST_RUNS: usize = 4;

/// Two guests: damaged links, the link, and what each guest has on it.
pub fn link_case(seen: &mut Seen, seed: u64) -> Result<(), String> {
    let random = &mut Random::new(!seed);
    let mut pair = pair(seed);
    for _ in 0..DAMAGED {
        let mut damaged = pair.clone();
        damage_pair(random, &mut damaged);
        both_link(seen, &mut damaged)?;
    }
    both_link(seen, &mut pair).and_then(accepted)?;
    let before_second = pair.first.image.len() / RECORD;
    guest_on_link(seen, random, &pair, &pair.first, 0)?;
    guest_on_link(seen, random, &pair, &pair.second, before_second as u16)
}

/// The guest has on the linked image, in a few Runs, the answers that it has by
/// itself in one, and the state with its labels shifted by the records that are
/// laid before its own.
fn guest_on_link(
    seen: &mut Seen,
    random: &mut Random,
    pair: &Pair,
    guest: &Guest,
    by: u16,
) -> Result<(), String> {
    let Pair { table, out, .. } = pair;
    let Guest { image, events } = guest;
    let mut alone = fresh(seen, pair, image)?;
    run(seen, &mut alone, events)?;
    let events = relocated_events(image, table, events, by).map_err(refused)?;
    let state = relocated_state(image, table, &alone.state, by).map_err(refused)?;
    let mut linked = fresh(seen, pair, out)?;
    let mut answers = Vec::new();
    let runs = random.between(2, MOST_RUNS);
    for part in events.chunks(EVENT * (events.len() / EVENT).div_ceil(runs).max(1)) {
        refused_run(seen, &mut linked, part)?;
        run(seen, &mut linked, part)?;
        answers.extend_from_slice(&linked.answers);
    }
    if answers != alone.answers {
        return Err("a guest has other answers on the linked image".into());
    }
    if linked.state != state {
        return Err("a guest leaves another state on the linked image".into());
    }
    if by > 0 {
        seen.note_shifted(&linked.state);
    }
    Ok(())
}

/// A fresh machine of this image, with the pair's table and words.
fn fresh(seen: &mut Seen, pair: &Pair, image: &[u8]) -> Result<Lent, String> {
    let mut lent = Lent {
        image: image.to_vec(),
        table: pair.table.clone(),
        words: pair.words.clone(),
        state: vec![0xEE; STATE],
        events: Vec::new(),
        answers: Vec::new(),
        thread: 0,
        met: Vec::new(),
    };
    both(seen, Call::Fresh, &mut lent).and_then(accepted)?;
    Ok(lent)
}

fn run(seen: &mut Seen, lent: &mut Lent, events: &[u8]) -> Result<(), String> {
    hand_over(lent, events);
    both(seen, Call::Run, lent).and_then(accepted)
}

/// A Run of these events that is refused for one more behind them: it carries
/// none of them out.
fn refused_run(seen: &mut Seen, lent: &mut Lent, events: &[u8]) -> Result<(), String> {
    hand_over(lent, &[events, &[0xFF; EVENT]].concat());
    match both(seen, Call::Run, lent)? {
        0 => Err("a Run with a bad event is accepted".into()),
        _ => Ok(()),
    }
}

fn accepted(returned: u32) -> Result<(), String> {
    if returned == 0 {
        Ok(())
    } else {
        Err(refused(returned))
    }
}

fn refused(returned: u32) -> String {
    format!("a whole pair or a guest of it is refused with {returned}")
}
