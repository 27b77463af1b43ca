//! The one-by-one reading: the second order of an event list.

use crate::events::{Answer, Event};
use crate::sorts::Thread;

/// The events written out job by job, each with its answer: first the events,
/// then the answers. Made from the list and its answers, and from nothing else.
pub fn second_order(events: &[u8], answers: &[u8]) -> (Vec<u8>, Vec<u8>) {
    let mut rows = vec![(Vec::new(), Vec::new()); Thread::COUNT];
    let mut written = (Vec::new(), Vec::new());
    for (event, answer) in events.chunks(Event::WIDTH).zip(answers.chunks(Answer::WIDTH)) {
        let row = &mut rows[usize::from(event[1])];
        let onto = match answer[0] {
            3 | 4 | 10 => continue,
            1 | 2 => &mut written,
            _ => &mut *row,
        };
        onto.0.extend(event);
        onto.1.extend(answer);
        if matches!(answer[0], 7..=9) {
            written.0.append(&mut row.0);
            written.1.append(&mut row.1);
        }
    }
    for mut row in rows {
        written.0.append(&mut row.0);
        written.1.append(&mut row.1);
    }
    written
}
