//! Packed decimals: four decimal digits in 16 bits, four bits each, the highest
//! first.

/// Decimal digits, the highest first; each is 0..9.
type Digits = [u16; 4];

/// The number, packed; none above 9,999.
pub fn pack(number: u16) -> Option<u16> {
    let digits = [number / 1_000, number / 100 % 10, number / 10 % 10, number % 10];
    (number <= 9_999).then(|| packed(digits))
}

/// The number that is packed; none if a digit is above 9.
pub fn unpack(packed: u16) -> Option<u16> {
    let [thousands, hundreds, tens, ones] = digits(packed)?;
    Some(1_000 * thousands + 100 * hundreds + 10 * tens + ones)
}

/// The packed sum modulo 10,000: each column's carry goes to the next higher
/// one, that of the highest is dropped. None if a digit of either is above 9.
pub fn add(p: u16, q: u16) -> Option<u16> {
    let (p, q) = (digits(p)?, digits(q)?);
    let (mut sum, mut carry) = ([0; 4], 0);
    for place in (0..4).rev() {
        let column = p[place] + q[place] + carry;
        (sum[place], carry) = (column % 10, column / 10);
    }
    Some(packed(sum))
}

/// None if a digit is above 9.
fn digits(packed: u16) -> Option<Digits> {
    let digits = [packed >> 12, packed >> 8 & 15, packed >> 4 & 15, packed & 15];
    digits.iter().all(|&digit| digit <= 9).then_some(digits)
}

fn packed([thousands, hundreds, tens, ones]: Digits) -> u16 {
    thousands << 12 | hundreds << 8 | tens << 4 | ones
}
