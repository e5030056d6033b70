//! A line read as a form, with the bytes of each part, and where and why it is none.

use tablet::layout::LINE_BYTES;

/// Bytes of a line, the first and the one after the last.
#[derive(Clone, Copy, PartialEq, Eq, Debug)]
pub struct Span {
    pub from: usize,
    pub to: usize,
}

/// A number as it stands in a line. One too great for 32 bits is the greatest, out of every range.
#[derive(Clone, Copy, PartialEq, Eq, Debug)]
pub struct Number {
    pub value: u32,
    pub span: Span,
}

/// A part of a form.
#[derive(Clone, PartialEq, Eq, Debug)]
pub enum Part {
    Number(Number),
    Word(String, Span),
    Form(Vec<Part>, Span),
}

/// Where a line is not of a form, why, and the rule.
#[derive(Clone, PartialEq, Eq, Debug)]
pub struct BadForm {
    pub span: Span,
    pub rule: &'static str,
    pub why: String,
}

impl Part {
    pub fn span(&self) -> Span {
        match self {
            Part::Number(number) => number.span,
            Part::Word(_, span) | Part::Form(_, span) => *span,
        }
    }
}

pub fn bad(from: usize, to: usize, rule: &'static str, why: impl Into<String>) -> BadForm {
    let span = Span { from, to };
    let why = why.into();
    BadForm { span, rule, why }
}

/// (rules T1, T2) The parts of the form on a line that ends with its line feed.
pub fn read_line(line: &[u8]) -> Result<Vec<Part>, BadForm> {
    let Some(body) = line.strip_suffix(b"\n") else {
        let end = line.len();
        return Err(bad(end, end + 1, "F1", "the line feed is missing"));
    };
    if body.len() > LINE_BYTES {
        let why = format!(
            "the line has {} bytes, at most {LINE_BYTES} are allowed",
            body.len()
        );
        return Err(bad(LINE_BYTES, body.len(), "T1", why));
    }
    if body.is_empty() {
        return Err(bad(0, 1, "T2", "the line is empty"));
    }
    let mut reader = Reader { line: body, at: 0 };
    let parts = reader.form()?;
    if reader.at < body.len() {
        return Err(bad(
            reader.at,
            body.len(),
            "T2",
            "this stands after the form's last bracket",
        ));
    }
    Ok(parts)
}

struct Reader<'a> {
    line: &'a [u8],
    at: usize,
}

impl Reader<'_> {
    fn peek(&self) -> Option<u8> {
        self.line.get(self.at).copied()
    }

    fn here(&self, rule: &'static str, why: impl Into<String>) -> BadForm {
        bad(self.at, self.at + 1, rule, why)
    }

    /// A bracket, parts with one space between two, a bracket.
    fn form(&mut self) -> Result<Vec<Part>, BadForm> {
        if self.peek() != Some(b'(') {
            return Err(self.here("T2", "a form begins with a bracket '('"));
        }
        self.at += 1;
        let mut parts = Vec::new();
        loop {
            parts.push(self.part()?);
            match self.peek() {
                Some(b' ') => self.at += 1,
                Some(b')') => {
                    self.at += 1;
                    return Ok(parts);
                }
                None => return Err(self.here("T2", "the closing bracket ')' is missing")),
                Some(_) => return Err(self.here("T2", "here should be a space or ')'")),
            }
        }
    }

    fn part(&mut self) -> Result<Part, BadForm> {
        let from = self.at;
        match self.peek() {
            Some(b'(') => {
                let parts = self.form()?;
                Ok(Part::Form(parts, Span { from, to: self.at }))
            }
            Some(b'0'..=b'9') => self.number(),
            Some(b'a'..=b'z') => {
                let word = self.run(|b| b.is_ascii_lowercase());
                let word = String::from_utf8_lossy(word).into_owned();
                Ok(Part::Word(word, Span { from, to: self.at }))
            }
            other => Err(self.no_part(other)),
        }
    }

    /// (rules T3, T4) A number of any length.
    fn number(&mut self) -> Result<Part, BadForm> {
        let from = self.at;
        let digits = self.run(|b| b.is_ascii_digit());
        let zero_in_front = digits.len() > 1 && digits.first() == Some(&b'0');
        let value = digits.iter().fold(0u32, |value, digit| {
            value
                .saturating_mul(10)
                .saturating_add(u32::from(digit - b'0'))
        });
        if zero_in_front {
            return Err(bad(from, self.at, "T3", "a number has no 0 in front"));
        }
        let span = Span { from, to: self.at };
        Ok(Part::Number(Number { value, span }))
    }

    /// The bytes from here on that pass the test.
    fn run(&mut self, test: impl Fn(&u8) -> bool) -> &[u8] {
        let rest = self.line.get(self.at..).unwrap_or(&[]);
        let length = rest.iter().take_while(|b| test(b)).count();
        self.at += length;
        &rest[..length]
    }

    fn no_part(&self, byte: Option<u8>) -> BadForm {
        let why = match byte {
            None => "the line ends within a form",
            Some(b' ') => "a space too many",
            Some(b')') => "a part is missing before ')'",
            Some(b'\t') => "a tab is no space",
            Some(b'\r') => "a carriage return is no part of a form",
            Some(b'A'..=b'Z') => "a word has small letters only",
            Some(b'+' | b'-') => return self.here("T3", "a number has no sign"),
            Some(_) => "this byte is no part of a form",
        };
        self.here("T2", why)
    }
}
