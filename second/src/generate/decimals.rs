//! Numbers at the edges of packed decimals, at random.

use super::random::Random;

/// A number to be packed or a packed one.
pub fn number_or_packed(random: &mut Random) -> u16 {
    if random.once_in(2) {
        number(random)
    } else {
        packed(random)
    }
}

/// A number that can be packed, often a power of ten or beside one, or one just
/// above 9,999.
pub fn number(random: &mut Random) -> u16 {
    let power = random.one_of([1, 10, 100, 1_000, 10_000, 10_000]);
    let any = random.below(10_000) as u16;
    random.one_of([power - 1, power, power + 1, any])
}

/// A packed number, or one that a digit above 9 keeps from being packed.
pub fn packed(random: &mut Random) -> u16 {
    packed_beside(random, 0)
}

/// As `packed`, with each digit often at the edge of a carry when this value is
/// added.
pub fn packed_beside(random: &mut Random, value: u16) -> u16 {
    let mut digits = [12, 8, 4, 0].map(|shift| digit_beside(random, value >> shift & 15));
    if random.once_in(4) {
        let above_9 = random.between(10, 15) as u16;
        digits[random.below(4)] = random.one_of([10, 15, above_9]);
    }
    digits.into_iter().fold(0, |packed, digit| packed << 4 | digit)
}

/// A digit that with this one often makes 9, which a carry makes 10, or 10.
fn digit_beside(random: &mut Random, digit: u16) -> u16 {
    let any = random.below(10) as u16;
    match digit {
        0..=9 => random.one_of([0, 9 - digit, 9.min(10 - digit), any]),
        _ => any,
    }
}
