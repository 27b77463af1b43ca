//! The sorts of steps that a comparison has to meet, by opcode.

use crate::codes::{ASSIGN, DECIMAL_ADD, DIVIDE, PACK, UNPACK};
use crate::decimals::{DECIMALS, DECIMAL_SUMS, PACKINGS, UNPACKINGS};
use crate::divisions::DIVISIONS;
use crate::steps::Step;
use crate::subtractions::SUBTRACTIONS;
use crate::unmet::{ToMeet, Unmet};

/// Whether a step of the opcode is of a sort.
type IsOf = fn(&Step) -> bool;
pub type Sort = (&'static str, IsOf);
pub type UnmetSorts = Unmet<IsOf>;

const SORTS: [ToMeet<IsOf>; 8] = [
    (ASSIGN, "a subtraction", SUBTRACTIONS),
    (DIVIDE, "a division", DIVISIONS),
    (PACK, "a packing", PACKINGS),
    (PACK, "a packing", DECIMALS),
    (UNPACK, "an unpacking", UNPACKINGS),
    (UNPACK, "an unpacking", DECIMALS),
    (DECIMAL_ADD, "a decimal sum", DECIMAL_SUMS),
    (DECIMAL_ADD, "a decimal sum", DECIMALS),
];

impl Default for UnmetSorts {
    fn default() -> UnmetSorts {
        Unmet::all_of(&SORTS)
    }
}

impl UnmetSorts {
    pub fn note(&mut self, step: &Step) {
        self.meet(step.record[0], |is_of| is_of(step));
    }
}
