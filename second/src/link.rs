//! Linking two guests' images (document 02, #101).

use crate::image::{Program, Record};
use crate::refusal::Refusal;

/// The first guest's records, then the second's with every label they name
/// shifted by the first's record count. The guests have no block in common,
/// though perhaps a lock, so each record still finds its own labels, blocks and
/// entries.
pub fn linked(first: Vec<Record>, second: Vec<Record>) -> Result<Vec<Record>, Refusal> {
    let in_second = |record: &Record| second.iter().any(|other| other.block == record.block);
    if first.iter().any(in_second) {
        return Err(Refusal::CommonBlock);
    }
    if first.len() + second.len() > Program::LIMIT {
        return Err(Refusal::LinkedCount);
    }
    let by = first.len() as u16;
    let mut records = first;
    for mut record in second {
        record.statement.relocate(by);
        records.push(record);
    }
    Ok(records)
}
