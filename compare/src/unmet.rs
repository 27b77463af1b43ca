//! What a comparison has to meet of opcodes and has not met yet.

/// An opcode, how a step or a record of it is called, and what is to be met of
/// them: in words that go on from there, and with what tells it.
pub type ToMeet<T> = (u8, &'static str, &'static [(&'static str, T)]);

pub struct Unmet<T> {
    /// Each with its opcode, and in words.
    rest: Vec<(u8, String, T)>,
}

impl<T: Copy> Unmet<T> {
    pub fn all_of(lists: &[ToMeet<T>]) -> Unmet<T> {
        let mut rest = Vec::new();
        for &(opcode, name, list) in lists {
            rest.extend(
                list.iter().map(|&(words, test)| (opcode, format!("{name} {words}"), test)),
            );
        }
        Unmet { rest }
    }

    /// Leaves out what is met with a step or a record of this opcode.
    pub fn meet(&mut self, opcode: u8, is_met: impl Fn(T) -> bool) {
        self.rest.retain(|&(of, _, test)| of != opcode || !is_met(test));
    }

    pub fn words(&self) -> Vec<String> {
        self.rest.iter().map(|(_, words, _)| words.clone()).collect()
    }
}
