//! Trials over generated machines.

use super::{damage, damage_pair, lent, pair, Lent, Pair, Random};
use crate::events::Event;
use crate::image::Program;
use crate::sorts::Thread;
use crate::state::State;
use crate::statement::{Operand, Place, Statement};
use crate::step::carry_out;
use crate::{check, fresh, link, relocated_events, relocated_state, run, second_order};
use std::collections::BTreeSet;
use std::ops::Range;

/// A generated machine as Fresh leaves it.
pub fn begun(seed: u64) -> Lent {
    let mut lent = lent(seed);
    assert_eq!(check(&lent.image, &lent.table), 0);
    assert_eq!(fresh(&lent.image, &lent.table, &lent.words, &mut lent.state), 0);
    lent
}

/// Hands every event of these machines to `act`, which carries it out.
pub fn each_event(seeds: Range<u64>, mut act: impl FnMut(&Program, &mut State, &Event)) {
    for lent in seeds.map(begun) {
        let program = Program::decode(&lent.image, &lent.table).unwrap();
        let mut state = State::decode(&program, &lent.state).unwrap();
        for event in Event::decode_list(&program, &lent.events).unwrap() {
            act(&program, &mut state, &event);
        }
    }
}

/// Whether of a hundred jobs one to ten end with this answer.
pub fn one_to_ten_of_a_hundred_end(with: [u8; 2]) -> bool {
    let (mut ends, mut with_it) = (0, 0);
    each_event(0..200, |program, state, event| {
        let answer = carry_out(program, state, event).encode();
        ends += usize::from(matches!(answer[0], 7..=9));
        with_it += usize::from(answer == with);
    });
    ends / 100 < with_it && with_it < ends / 10
}

/// The thread that the event steps, with its job's statement, if it runs.
pub fn stepped<'a>(
    program: &'a Program,
    state: &State,
    event: &Event,
) -> Option<(Thread, &'a Statement)> {
    let Event::Step(thread) = *event else {
        return None;
    };
    Some((thread, &program.record(state.job(thread)?.label).statement))
}

/// The value of the operand for the thread's job, if it runs.
pub fn value(state: &State, thread: Thread, operand: Operand) -> Option<u16> {
    let job = state.job(thread)?;
    match operand {
        Operand::Number(number) => Some(number),
        Operand::Kept(Place::Register(register)) => job.registers.get(register),
        Operand::Kept(Place::Word(word)) => Some(state.words[usize::from(word)]),
    }
}

pub fn kind(operand: Operand) -> &'static str {
    match operand {
        Operand::Number(_) => "number",
        Operand::Kept(Place::Register(_)) => "register",
        Operand::Kept(Place::Word(_)) => "word",
    }
}

pub fn u16_at(bytes: &[u8], place: usize) -> u16 {
    u16::from_le_bytes([bytes[place], bytes[place + 1]])
}

/// The faults that damage of one sort makes in states that Run left, or "none"
/// where it makes none. Run refuses such a state exactly if it has a fault.
pub fn faults_met(
    seed: u64,
    of_the_sort: impl Fn(&Lent, &Lent) -> bool,
    fault: impl Fn(&Lent) -> Option<&'static str>,
) -> BTreeSet<&'static str> {
    let random = &mut Random::new(seed);
    let mut faults = BTreeSet::new();
    // Few machines are left with a job that returns to a block of another lock.
    for mut whole in (0..200).map(begun) {
        let Lent { image, table, state, events, answers, .. } = &mut whole;
        assert_eq!(run(image, table, state, events, answers), 0);
        (*events, *answers) = (Vec::new(), Vec::new());
        for _ in 0..40 {
            let mut lent = whole.clone();
            damage(random, &mut lent);
            if of_the_sort(&whole, &lent) {
                let fault = fault(&lent);
                faults.insert(fault.unwrap_or("none"));
                let Lent { image, table, mut state, events, mut answers, .. } = lent;
                let code = run(&image, &table, &mut state, &events, &mut answers);
                assert_eq!(code / 65_536 == 6, fault.is_some());
            }
        }
    }
    faults
}

#[test]
fn the_jobs_one_by_one_leave_the_same_state_and_answers() {
    for seed in 0..40 {
        let Lent { image, table, mut state, events, mut answers, .. } = begun(seed);
        let mut second_state = state.clone();
        assert_eq!(run(&image, &table, &mut state, &events, &mut answers), 0);
        let (events, expected) = second_order(&events, &answers);
        let mut answers = vec![0; expected.len()];
        assert_eq!(run(&image, &table, &mut second_state, &events, &mut answers), 0);
        assert!(answers == expected && second_state == state, "seed {seed}");
    }
}

#[test]
fn the_same_events_in_two_runs_leave_the_same_state() {
    for seed in 40..60 {
        let Lent { image, table, mut state, events, mut answers, .. } = begun(seed);
        let (mut halves, half) = ((state.clone(), answers.clone()), events.len() / 55 / 2);
        assert_eq!(run(&image, &table, &mut state, &events, &mut answers), 0);
        let (first, last) = events.split_at(55 * half);
        let (first_answers, last_answers) = halves.1.split_at_mut(2 * half);
        assert_eq!(run(&image, &table, &mut halves.0, first, first_answers), 0);
        assert_eq!(run(&image, &table, &mut halves.0, last, last_answers), 0);
        assert!(halves == (state, answers), "seed {seed}");
    }
}

#[test]
fn a_refused_run_alters_no_byte() {
    let random = &mut Random::new(1);
    let mut refused = 0;
    for seed in 0..200 {
        let mut lent = begun(seed);
        damage(random, &mut lent);
        let before = lent.clone();
        if run(&lent.image, &lent.table, &mut lent.state, &lent.events, &mut lent.answers) != 0 {
            assert!(lent.state == before.state && lent.answers == before.answers, "seed {seed}");
            refused += 1;
        }
    }
    assert!(refused > 50);
}

/// The answers to these events from a fresh machine on, and the state they leave.
fn outcome(image: &[u8], table: &[u8], words: &[u8], events: &[u8]) -> (Vec<u8>, Vec<u8>) {
    let (mut answers, mut state) = (vec![0; events.len() / 55 * 2], vec![0; 9_633]);
    assert_eq!(fresh(image, table, words, &mut state), 0);
    assert_eq!(run(image, table, &mut state, events, &mut answers), 0);
    (answers, state)
}

#[test]
fn a_guest_has_on_the_linked_image_what_it_has_by_itself() {
    let mut shifted = 0;
    for seed in 0..40 {
        let Pair { first, second, table, words, mut out } = pair(seed);
        assert_eq!(link(&first.image, &second.image, &table, &mut out), 0);
        assert_eq!(check(&out, &table), 0);
        let before_second = (first.image.len() / 84) as u16;
        for (guest, by) in [(first, 0), (second, before_second)] {
            let (answers, state) = outcome(&guest.image, &table, &words, &guest.events);
            let events = relocated_events(&guest.image, &table, &guest.events, by).unwrap();
            let expected = relocated_state(&guest.image, &table, &state, by).unwrap();
            assert_eq!(expected[..512], state[..512]);
            assert!(by != 0 || (&events, &expected) == (&guest.events, &state));
            shifted += u32::from(expected != state);
            assert!(outcome(&out, &table, &words, &events) == (answers, expected), "seed {seed}");
        }
    }
    assert!(shifted > 20);
}

#[test]
fn damaged_pairs_meet_every_refusal_of_link() {
    let random = &mut Random::new(2);
    let mut numbers = BTreeSet::new();
    for whole in (0..12).map(pair) {
        for _ in 0..20 {
            let mut pair = whole.clone();
            damage_pair(random, &mut pair);
            let before = pair.out.clone();
            let code = link(&pair.first.image, &pair.second.image, &pair.table, &mut pair.out);
            numbers.insert(code / 65_536);
            assert!(if code == 0 {
                check(&pair.out, &pair.table) == 0
            } else {
                pair.out == before
            });
        }
    }
    assert_eq!(numbers, BTreeSet::from([0, 1, 2, 3, 4, 13, 14, 15]));
}
