//! Packed decimals by way of text: a packed number written in hexadecimal is its
//! number written in decimal.

/// None if the text stands for more than 16 bits.
pub fn packed(number: u16) -> Option<u16> {
    u16::from_str_radix(&number.to_string(), 16).ok()
}

/// None if the text has a letter.
pub fn unpacked(packed: u16) -> Option<u16> {
    format!("{packed:x}").parse().ok()
}

pub fn sum(p: u16, q: u16) -> Option<u16> {
    packed((unpacked(p)? + unpacked(q)?) % 10_000)
}
