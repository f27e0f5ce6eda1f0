//! A stand-in for the crate `gsm7`, which is not at hand. It has the part that tpdu's lib.rs
//! calls, under the same names, and is written from TS 23.038: the default alphabet of §6.2.1,
//! the extension table of §6.2.1.1, septets packed low bit first (§6.1.2.1.1). What the real
//! crate would answer beyond that is not known here, and so not compared.

use std::io::{self, Read, Write};

/// The code that announces a code of the extension table.
const ESCAPE: u8 = 0x1B;

/// §6.2.1: the character of each code from 00 to 7F. At 1B stands the control character itself,
/// which is neither read nor written as a character.
const DEFAULT: [char; 128] = [
    '@', '£', '$', '¥', 'è', 'é', 'ù', 'ì', 'ò', 'Ç', '\n', 'Ø', 'ø', '\r', 'Å', 'å', //
    'Δ', '_', 'Φ', 'Γ', 'Λ', 'Ω', 'Π', 'Ψ', 'Σ', 'Θ', 'Ξ', '\x1B', 'Æ', 'æ', 'ß', 'É', //
    ' ', '!', '"', '#', '¤', '%', '&', '\'', '(', ')', '*', '+', ',', '-', '.', '/', //
    '0', '1', '2', '3', '4', '5', '6', '7', '8', '9', ':', ';', '<', '=', '>', '?', //
    '¡', 'A', 'B', 'C', 'D', 'E', 'F', 'G', 'H', 'I', 'J', 'K', 'L', 'M', 'N', 'O', //
    'P', 'Q', 'R', 'S', 'T', 'U', 'V', 'W', 'X', 'Y', 'Z', 'Ä', 'Ö', 'Ñ', 'Ü', '§', //
    '¿', 'a', 'b', 'c', 'd', 'e', 'f', 'g', 'h', 'i', 'j', 'k', 'l', 'm', 'n', 'o', //
    'p', 'q', 'r', 's', 't', 'u', 'v', 'w', 'x', 'y', 'z', 'ä', 'ö', 'ñ', 'ü', 'à',
];

/// §6.2.1.1: code behind the escape, and its character.
const EXTENSION: [(u8, char); 10] = [
    (0x0A, '\x0C'),
    (0x14, '^'),
    (0x28, '{'),
    (0x29, '}'),
    (0x2F, '\\'),
    (0x3C, '['),
    (0x3D, '~'),
    (0x3E, ']'),
    (0x40, '|'),
    (0x65, '€'),
];

/// The character of a code that stood behind an escape.
fn extension_character(code: u8) -> Option<char> {
    let row = EXTENSION.iter().find(|row| row.0 == code)?;
    Some(row.1)
}

/// The code of a character of the extension table.
fn extension_code(character: char) -> Option<u8> {
    let row = EXTENSION.iter().find(|row| row.1 == character)?;
    Some(row.0)
}

/// The code of a character of the default alphabet. ESC is none of them.
fn default_code(character: char) -> Option<u8> {
    let code = DEFAULT.iter().position(|&c| c == character)? as u8;
    (code != ESCAPE).then_some(code)
}

/// Reads packed septets as characters. An item is `Err` only after an escape: the code behind it
/// isn't in the extension table (both septets are then read), or the data end there.
pub struct Gsm7Reader<R> {
    source: R,
    /// Bits that were taken from the source and not yet read, lowest first.
    bits: u32,
    held: u32,
}

impl<R: Read> Gsm7Reader<R> {
    pub fn new(source: R) -> Self {
        Gsm7Reader {
            source,
            bits: 0,
            held: 0,
        }
    }

    /// A reader that leaves out the first `offset` bits.
    pub fn new_with_bit_offset(source: R, offset: u32) -> io::Result<Self> {
        let mut reader = Self::new(source);
        for _ in 0..offset {
            if reader.read_bits(1)?.is_none() {
                return Err(io::ErrorKind::UnexpectedEof.into());
            }
        }
        Ok(reader)
    }

    /// The next `count` bits (at most 8), or nothing where fewer are left.
    fn read_bits(&mut self, count: u32) -> io::Result<Option<u8>> {
        while self.held < count {
            let mut octet = [0];
            if self.source.read(&mut octet)? == 0 {
                return Ok(None);
            }
            self.bits |= u32::from(octet[0]) << self.held;
            self.held += 8;
        }
        let value = self.bits & ((1 << count) - 1);
        self.bits >>= count;
        self.held -= count;
        Ok(Some(value as u8))
    }

    /// The next character, or nothing where no whole septet is left.
    fn character(&mut self) -> io::Result<Option<char>> {
        let Some(code) = self.read_bits(7)? else {
            return Ok(None);
        };
        if code != ESCAPE {
            return Ok(Some(DEFAULT[usize::from(code)]));
        }
        let Some(code) = self.read_bits(7)? else {
            return Err(io::ErrorKind::UnexpectedEof.into());
        };
        match extension_character(code) {
            Some(character) => Ok(Some(character)),
            None => Err(io::ErrorKind::InvalidData.into()),
        }
    }
}

impl<R: Read> Iterator for Gsm7Reader<R> {
    type Item = io::Result<char>;

    fn next(&mut self) -> Option<Self::Item> {
        self.character().transpose()
    }
}

/// Writes characters as packed septets.
pub struct Gsm7Writer<W> {
    sink: W,
    /// Bits that were written and don't fill an octet yet, lowest first.
    bits: u32,
    held: u32,
}

impl<W: Write> Gsm7Writer<W> {
    pub fn new(sink: W) -> Self {
        Gsm7Writer {
            sink,
            bits: 0,
            held: 0,
        }
    }

    pub fn write_bit(&mut self, bit: bool) -> io::Result<()> {
        self.put(u8::from(bit), 1)
    }

    /// Write a character as one septet, or as escape and code; `Err` where neither table has it.
    pub fn write_char(&mut self, character: char) -> io::Result<()> {
        if let Some(code) = default_code(character) {
            return self.put(code, 7);
        }
        let Some(code) = extension_code(character) else {
            return Err(io::ErrorKind::InvalidInput.into());
        };
        self.put(ESCAPE, 7)?;
        self.put(code, 7)
    }

    /// The sink, after the bits that don't fill an octet, with zeros above them.
    pub fn into_writer(mut self) -> io::Result<W> {
        if self.held > 0 {
            self.sink.write_all(&[self.bits as u8])?;
        }
        Ok(self.sink)
    }

    /// Append the `count` low bits of `value`.
    fn put(&mut self, value: u8, count: u32) -> io::Result<()> {
        self.bits |= u32::from(value) << self.held;
        self.held += count;
        if self.held >= 8 {
            self.sink.write_all(&[self.bits as u8])?;
            self.bits >>= 8;
            self.held -= 8;
        }
        Ok(())
    }
}

#[cfg(test)]
mod tests {
    use super::*;

    fn packed(text: &str) -> Vec<u8> {
        let mut writer = Gsm7Writer::new(Vec::new());
        for character in text.chars() {
            writer.write_char(character).unwrap();
        }
        writer.into_writer().unwrap()
    }

    #[test]
    fn hellohello() {
        let octets = [0xE8, 0x32, 0x9B, 0xFD, 0x46, 0x97, 0xD9, 0xEC, 0x37];
        assert_eq!(packed("hellohello"), octets);
        let read: io::Result<String> = Gsm7Reader::new(&octets[..]).collect();
        assert_eq!(read.unwrap(), "hellohello");
    }

    #[test]
    fn every_code_there_and_back() {
        for (code, &character) in DEFAULT.iter().enumerate() {
            let expected = (code != usize::from(ESCAPE)).then_some(code as u8);
            assert_eq!(default_code(character), expected);
            assert_eq!(extension_code(character), None);
        }
        for (code, character) in EXTENSION {
            assert_eq!(extension_character(code), Some(character));
            assert_eq!(extension_code(character), Some(code));
        }
    }

    #[test]
    fn unknown_escape_takes_both_septets() {
        // escape, 41, then 42
        let octets = [0x9B, 0xA0, 0x10];
        let mut reader = Gsm7Reader::new(&octets[..]);
        assert!(reader.next().unwrap().is_err());
        assert_eq!(reader.next().unwrap().unwrap(), 'B');
    }
}
