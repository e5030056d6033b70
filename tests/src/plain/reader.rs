//! A line of bytes, read from the front.

/// (rule X3) A line has at most so many bytes before its line feed.
const LINE_BYTES: usize = 255;

pub struct Reader<'a> {
    rest: &'a [u8],
}

impl<'a> Reader<'a> {
    /// The bytes between the brackets of a line; none unless its line feed is
    /// its last byte and it is not too long.
    pub fn of(line: &'a [u8]) -> Option<Reader<'a>> {
        let rest = line.strip_suffix(b"\n")?;
        if rest.len() > LINE_BYTES {
            return None;
        }
        let rest = rest.strip_prefix(b"(")?.strip_suffix(b")")?;
        Some(Reader { rest })
    }

    pub fn is_empty(&self) -> bool {
        self.rest.is_empty()
    }

    pub fn byte(&mut self, byte: u8) -> Option<()> {
        let (first, rest) = self.rest.split_first()?;
        self.rest = rest;
        (*first == byte).then_some(())
    }

    /// Digits without leading zeros; too many are the greatest number.
    pub fn number(&mut self) -> Option<u32> {
        let mut value = 0u32;
        let mut digits = 0;
        while let Some(byte @ b'0'..=b'9') = self.rest.get(digits) {
            value = value
                .saturating_mul(10)
                .saturating_add(u32::from(byte - b'0'));
            digits += 1;
        }
        if digits == 0 || (digits > 1 && self.rest[0] == b'0') {
            return None;
        }
        self.rest = &self.rest[digits..];
        Some(value)
    }

    /// A space and a number.
    pub fn next_number(&mut self) -> Option<u32> {
        self.byte(b' ')?;
        self.number()
    }

    /// Small letters; they may be none.
    pub fn word(&mut self) -> &'a [u8] {
        let letters = self
            .rest
            .iter()
            .take_while(|b| b.is_ascii_lowercase())
            .count();
        let (word, rest) = self.rest.split_at(letters);
        self.rest = rest;
        word
    }
}
