//! Hex digits to bytes, piece by piece and in bounded memory; and bytes to hex
//! digits.

use std::fmt;

/// Bytes as hex digits.
pub fn digits(bytes: &[u8]) -> String {
    bytes.iter().map(|byte| format!("{byte:02X}")).collect()
}

/// Digits read so far.
#[derive(Default)]
pub struct Hex {
    /// The first bytes; the others were only looked at, and counted.
    bytes: Vec<u8>,
    left_out: u64,
    /// The first digit of a byte whose second one has not come yet.
    half: Option<u8>,
    /// How many letters came before.
    letters: u64,
}

/// Why letters are no bytes.
#[derive(Clone, Copy, Debug, PartialEq, Eq)]
pub enum Bad {
    /// The last byte has one digit.
    OddDigits,
    /// A letter that is no digit, and how many letters came before it.
    Letter(u8, u64),
}

impl Hex {
    /// Digits that so many other letters stand before.
    pub fn after(letters: usize) -> Hex {
        Hex {
            letters: letters as u64,
            ..Hex::default()
        }
    }

    /// Takes digits, between which white space may stand; of their bytes so many
    /// are kept at most.
    pub fn push(&mut self, letters: &[u8], most: usize) -> Result<(), Bad> {
        for letter in letters {
            match (char::from(*letter).to_digit(16), self.half) {
                (None, _) if matches!(letter, b' ' | b'\t'..=b'\r') => (),
                (None, _) => return Err(Bad::Letter(*letter, self.letters)),
                (Some(value), None) => self.half = Some(value as u8),
                (Some(value), Some(half)) => {
                    self.half = None;
                    if self.bytes.len() < most {
                        self.bytes.push(half << 4 | value as u8);
                    } else {
                        self.left_out += 1;
                    }
                }
            }
            self.letters += 1;
        }
        Ok(())
    }

    /// The bytes that were kept, and how many weren't.
    pub fn bytes(self) -> Result<(Vec<u8>, u64), Bad> {
        match self.half {
            Some(_) => Err(Bad::OddDigits),
            None => Ok((self.bytes, self.left_out)),
        }
    }
}

impl fmt::Display for Bad {
    fn fmt(&self, formatter: &mut fmt::Formatter) -> fmt::Result {
        match self {
            Bad::OddDigits => write!(formatter, "odd count of hex digits"),
            Bad::Letter(letter, place) if letter.is_ascii_graphic() => {
                let letter = char::from(*letter);
                write!(formatter, "'{letter}' at place {place} is no hex digit")
            }
            Bad::Letter(letter, place) => {
                write!(
                    formatter,
                    "byte {letter:#04X} at place {place} is no hex digit"
                )
            }
        }
    }
}

#[cfg(test)]
mod tests {
    use super::*;

    fn read(pieces: &[&[u8]], most: usize) -> Result<(Vec<u8>, u64), Bad> {
        let mut hex = Hex::after(10);
        for piece in pieces {
            hex.push(piece, most)?;
        }
        hex.bytes()
    }

    #[test]
    fn digits_of_both_cases_and_white_space() {
        let digits: &[u8] = b" 0a\tfF\r\n9 9 \x0B\x0C";
        assert_eq!(read(&[digits], 3), Ok((vec![10, 255, 153], 0)));
        assert_eq!(read(&[digits], 1), Ok((vec![10], 2)));
        assert_eq!(read(&[], 3), Ok((vec![], 0)));
    }

    #[test]
    fn bytes_may_be_cut_anywhere() {
        let pieces: [&[u8]; 4] = [b"1", b"", b"23", b"4"];
        assert_eq!(read(&pieces, 2), Ok((vec![0x12, 0x34], 0)));
    }

    #[test]
    fn the_first_fault_is_told_with_its_place() {
        assert_eq!(read(&[b"123"], 0), Err(Bad::OddDigits));
        assert_eq!(read(&[b"12 ", b"3g!"], 9), Err(Bad::Letter(b'g', 14)));
        let told = [(b'g', "'g'"), (7, "byte 0x07")];
        for (letter, name) in told {
            let bad = Bad::Letter(letter, 4).to_string();
            assert_eq!(bad, format!("{name} at place 4 is no hex digit"));
        }
    }
}
