//! The causes for which a call is turned back at the door.

use crate::sorts::{Block, Label};

/// A cause, with its place where the place is not always 0.
#[derive(Clone, Copy, Debug, PartialEq, Eq)]
pub enum Refusal {
    ImageLength,
    TableLength,
    TableField(Block),
    Record(Label),
    StateLength,
    StateForm,
    EventsLength,
    Event(u16),
    AnswersLength,
    WordsLength,
    WalkThread,
    WalkBuffer,
    /// Both images to be linked name the same block.
    CommonBlock,
    /// More records result from linking than an image may have.
    LinkedCount,
    /// The output is not as long as the linked image.
    LinkedLength,
}

impl From<Refusal> for u32 {
    /// 65,536 x number + place.
    fn from(refusal: Refusal) -> u32 {
        let (number, place) = match refusal {
            Refusal::ImageLength => (1, 0),
            Refusal::TableLength => (2, 0),
            Refusal::TableField(block) => (3, u32::from(block.number())),
            Refusal::Record(label) => (4, u32::from(label.number())),
            Refusal::StateLength => (5, 0),
            Refusal::StateForm => (6, 0),
            Refusal::EventsLength => (7, 0),
            Refusal::Event(index) => (8, u32::from(index)),
            Refusal::AnswersLength => (9, 0),
            Refusal::WordsLength => (10, 0),
            Refusal::WalkThread => (11, 0),
            Refusal::WalkBuffer => (12, 0),
            Refusal::CommonBlock => (13, 0),
            Refusal::LinkedCount => (14, 0),
            Refusal::LinkedLength => (15, 0),
        };
        65_536 * number + place
    }
}
