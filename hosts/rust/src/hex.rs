//! Bytes in hexadecimal, as lines have them.

use crate::error::Malformed;
use std::fmt;
use std::str::FromStr;

const DIGITS: &[u8; 16] = b"0123456789abcdef";

/// An even number of small hexadecimal digits. A host passes most bytes on as it reads them, so they stay text.
#[derive(Clone, Debug, Eq, PartialEq)]
pub struct Hex(String);

impl Hex {
    pub fn encode(bytes: &[u8]) -> Hex {
        let mut text = String::with_capacity(2 * bytes.len());
        for byte in bytes {
            text.push(char::from(DIGITS[usize::from(byte >> 4)]));
            text.push(char::from(DIGITS[usize::from(byte & 15)]));
        }
        Hex(text)
    }

    pub fn decode(&self) -> Vec<u8> {
        let pairs = self.0.as_bytes().chunks_exact(2);
        pairs
            .map(|pair| value(pair[0]) << 4 | value(pair[1]))
            .collect()
    }
}

/// The value of a digit, which `from_str` saw to be one.
fn value(digit: u8) -> u8 {
    match digit {
        b'0'..=b'9' => digit - b'0',
        _ => digit.wrapping_sub(b'a').wrapping_add(10),
    }
}

impl FromStr for Hex {
    type Err = Malformed;

    fn from_str(text: &str) -> Result<Hex, Malformed> {
        let is_hex =
            text.len().is_multiple_of(2) && text.bytes().all(|digit| DIGITS.contains(&digit));
        if is_hex {
            Ok(Hex(text.to_owned()))
        } else {
            Err(Malformed("hexadecimal"))
        }
    }
}

impl fmt::Display for Hex {
    fn fmt(&self, out: &mut fmt::Formatter) -> fmt::Result {
        out.write_str(&self.0)
    }
}

#[cfg(test)]
mod tests {
    use super::*;

    #[test]
    fn bytes_and_back() {
        let hex = Hex::encode(&[0x00, 0x9a, 0xff]);
        assert_eq!(hex.to_string(), "009aff");
        assert_eq!("009aff".parse(), Ok(hex.clone()));
        assert_eq!(hex.decode(), [0x00, 0x9a, 0xff]);
    }

    #[test]
    fn what_is_no_hexadecimal() {
        for text in ["0", "0g", "AA", "0 ", "é"] {
            assert_eq!(
                text.parse::<Hex>(),
                Err(Malformed("hexadecimal")),
                "{text:?}"
            );
        }
    }
}
