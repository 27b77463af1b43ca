//! The linked-guest reading (document 02, #101): what a guest has by itself,
//! as it stands on the linked image. From a fresh machine with the same words
//! the relocated events get the same answers there and leave the relocated state:
//! no job of the other guest runs, so none holds a lock that the guests share.
//!
//! `by` is the number of records laid before the guest's: 0 for the first
//! guest, the first's record count for the second. An error is the refusal
//! that Run would give.

use crate::encode::events_bytes;
use crate::events::Event;
use crate::image::Program;
use crate::state::State;

/// The guest's events with the label of each arrival shifted.
pub fn relocated_events(
    image: &[u8],
    table: &[u8],
    events: &[u8],
    by: u16,
) -> Result<Vec<u8>, u32> {
    let program = Program::decode(image, table)?;
    let mut events = Event::decode_list(&program, events)?;
    for event in &mut events {
        if let Event::Arrival(signal) = event {
            signal.label.relocate(by);
        }
    }
    Ok(events_bytes(&events))
}

/// The guest's state with the labels of running threads, the return labels and
/// the labels of held and pending signals shifted. An idle thread has no label.
pub fn relocated_state(image: &[u8], table: &[u8], state: &[u8], by: u16) -> Result<Vec<u8>, u32> {
    let program = Program::decode(image, table)?;
    let mut state = State::decode(&program, state)?;
    for job in state.jobs.iter_mut().flatten() {
        job.label.relocate(by);
        job.returns.iter_mut().for_each(|back| back.relocate(by));
        job.held.iter_mut().for_each(|signal| signal.label.relocate(by));
    }
    for signal in state.trees.iter_mut().flat_map(|tree| &mut tree.pending) {
        signal.label.relocate(by);
    }
    Ok(state.encode())
}
