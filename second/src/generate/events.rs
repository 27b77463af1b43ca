//! Event lists at random.

use super::random::Random;
use crate::encode::events_bytes;
use crate::events::{Answer, Event};
use crate::image::{Entry, Program};
use crate::refusal::Refusal;
use crate::sorts::{Label, Thread};
use crate::state::State;
use crate::step::carry_out;
use crate::tree::Signal;

/// An event list that Run accepts with this image and table, drawn so that it
/// keeps the machine busy from this state on; empty if they are refused.
pub fn events(random: &mut Random, image: &[u8], table: &[u8], state: &[u8]) -> Vec<u8> {
    drawn(random, image, table, state).unwrap_or_default()
}

fn drawn(
    random: &mut Random,
    image: &[u8],
    table: &[u8],
    state: &[u8],
) -> Result<Vec<u8>, Refusal> {
    let program = Program::decode(image, table)?;
    let state = State::decode(&program, state)?;
    Ok(events_bytes(&Traffic::draw(random, &program).list(random, state)))
}

/// The sort of traffic one event list has.
struct Traffic<'a> {
    program: &'a Program,
    external: Vec<Label>,
    /// The weights of arrivals, steps and cuts.
    weights: [usize; 3],
    /// About how many steps a job gets without another event between.
    patience: usize,
}

impl Traffic<'_> {
    fn draw<'a>(random: &mut Random, program: &'a Program) -> Traffic<'a> {
        let labels = (0..).map_while(|number| program.label(number));
        let external: Vec<Label> =
            labels.filter(|&label| program.record(label).entry == Entry::External).collect();
        let mut weights =
            random.one_of([[1, 4, 0], [1, 8, 0], [8, 60, 1], [4, 20, 1], [2, 4, 0], [3, 9, 2]]);
        if external.is_empty() {
            weights[0] = 0;
        }
        Traffic { program, external, weights, patience: random.one_of([1, 1, 2, 12]) }
    }

    fn list(&self, random: &mut Random, mut state: State) -> Vec<Event> {
        let count = match random.weighted(&[1, 3, 12, 8]) {
            0 => 0,
            1 => random.between(1, 40),
            2 => random.between(41, Event::LIMIT),
            _ => Event::LIMIT,
        };
        let mut events = Vec::new();
        while events.len() < count {
            let event = self.event(random, &state);
            let mut answer = carry_out(self.program, &mut state, &event);
            events.push(event.clone());
            while self.steady(random, answer) && events.len() < count {
                answer = carry_out(self.program, &mut state, &event);
                events.push(event.clone());
            }
        }
        events
    }

    /// Whether a job that moves is stepped again before any other event.
    fn steady(&self, random: &mut Random, answer: Answer) -> bool {
        matches!(answer, Answer::Started | Answer::MovedOn) && !random.once_in(self.patience)
    }

    fn event(&self, random: &mut Random, state: &State) -> Event {
        let idle = state.trees.is_empty() && !random.once_in(8);
        match random.weighted(&self.weights) {
            kind if kind == 0 || (idle && !self.external.is_empty()) => {
                let label = self.external[random.below(self.external.len())];
                Event::Arrival(Signal { label, values: random.values() })
            }
            1 => Event::Step(thread(random, |thread| state.first_tree(thread).is_some())),
            _ => Event::Cut(thread(random, |thread| state.job(thread).is_some())),
        }
    }
}

/// Mostly one of the busy threads; at times any.
pub fn thread(random: &mut Random, busy: impl Fn(Thread) -> bool) -> Thread {
    let all: Vec<Thread> = Thread::all().collect();
    let of_busy: Vec<Thread> = all.iter().copied().filter(|&thread| busy(thread)).collect();
    let any = all[random.below(all.len())];
    if random.once_in(16) {
        any
    } else {
        random.pick(&of_busy).unwrap_or(any)
    }
}
