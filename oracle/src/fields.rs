//! Fields of a request: octets, numbers, and octets as text.

use crate::{bad, Failure};

fn hex_digit(digit: u8) -> Option<u8> {
    char::from(digit).to_digit(16).map(|value| value as u8)
}

/// An octet of exactly two hexadecimal digits.
pub fn hex_octet(field: &[u8]) -> Option<u8> {
    let [high, low] = field else { return None };
    Some(hex_digit(*high)? << 4 | hex_digit(*low)?)
}

/// Octets of two hexadecimal digits each. `-` is no octets, and so is nothing.
pub fn hex_octets(field: &[u8]) -> Option<Vec<u8>> {
    match field {
        b"-" => Some(Vec::new()),
        _ => field.chunks(2).map(hex_octet).collect(),
    }
}

/// A number of one to nine decimal digits.
pub fn decimal(field: &[u8]) -> Option<u32> {
    if !(1..=9).contains(&field.len()) || !field.iter().all(u8::is_ascii_digit) {
        return None;
    }
    let number = |n, digit: &u8| n * 10 + u32::from(digit - b'0');
    Some(field.iter().fold(0, number))
}

/// A number to 255.
pub fn small(field: &[u8]) -> Option<u8> {
    decimal(field)?.try_into().ok()
}

pub fn octets(field: &[u8]) -> Result<Vec<u8>, Failure> {
    hex_octets(field).ok_or_else(|| bad("octets"))
}

pub fn number(field: &[u8], most: u32) -> Result<u32, Failure> {
    match decimal(field) {
        Some(number) if number <= most => Ok(number),
        _ => Err(bad("number")),
    }
}

pub fn octet(field: &[u8]) -> Result<u8, Failure> {
    small(field).ok_or_else(|| bad("number"))
}

/// A number from -128 to 127, a minus in front of the digits of a negative one.
pub fn signed(field: &[u8]) -> Result<i8, Failure> {
    let number = match field.strip_prefix(b"-") {
        Some(digits) => decimal(digits).map(|n| -i64::from(n)),
        None => decimal(field).map(i64::from),
    };
    let number = number.and_then(|n| n.try_into().ok());
    number.ok_or_else(|| bad("number"))
}

/// The octets as the `String` that the library takes.
///
/// A `String` can't hold octets that aren't UTF-8, so the library can't be asked about them as
/// they are. What isn't UTF-8 becomes U+FFFD, which is in neither alphabet and no digit: the
/// library then refuses the text or address (10) or the time (12) itself, and after whatever it
/// checks before.
pub fn text(octets: &[u8]) -> String {
    String::from_utf8_lossy(octets).into_owned()
}
