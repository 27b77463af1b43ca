//! The registers of one job.

use crate::bytes::{Reader, Writer};

/// Each register's value, `None` while it is absent.
#[derive(Clone, Debug, PartialEq, Eq)]
pub struct Registers([Option<u16>; Registers::COUNT]);

impl Registers {
    pub const COUNT: usize = 25;

    /// The values fill registers 0 upward; the others are absent.
    pub fn filled(values: &[u16]) -> Registers {
        Registers([None; Registers::COUNT]).overwritten(values)
    }

    /// The values fill registers 0 upward; the others are kept.
    pub fn overwritten(mut self, values: &[u16]) -> Registers {
        for (register, &value) in self.0.iter_mut().zip(values) {
            *register = Some(value);
        }
        self
    }

    pub fn get(&self, register: u8) -> Option<u16> {
        self.0[usize::from(register)]
    }

    /// A register stored to becomes present.
    pub fn stored(mut self, register: u8, value: u16) -> Registers {
        self.0[usize::from(register)] = Some(value);
        self
    }

    /// `None` if a presence bit above 24 is set or an absent register's value is not zero.
    pub fn read(reader: &mut Reader) -> Option<Registers> {
        let presence = reader.quad();
        let mut registers = [None; Registers::COUNT];
        for (number, register) in registers.iter_mut().enumerate() {
            let value = reader.pair();
            match (presence >> number & 1, value) {
                (1, _) => *register = Some(value),
                (_, 0) => {}
                _ => return None,
            }
        }
        (presence >> Registers::COUNT == 0).then_some(Registers(registers))
    }

    pub fn write(&self, writer: &mut Writer) {
        let bits = self.0.iter().enumerate();
        writer.quad(bits.map(|(number, held)| u32::from(held.is_some()) << number).sum());
        for register in self.0 {
            writer.pair(register.unwrap_or(0));
        }
    }
}
