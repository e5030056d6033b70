//! Reading one line as a form: brackets nested, single spaces, no leading zeros.

use crate::limits::LINE_BYTES;

/// A part of a form: a number, a word of small letters or a form in brackets.
/// (rule T4) 4,294,967,295 stands for itself and for all above it: out of every range.
#[derive(Clone, PartialEq, Eq, Debug)]
pub enum Part<'a> {
    Number(u32),
    Word(&'a [u8]),
    Form(Vec<Part<'a>>),
}

/// (rules T1, T2, F1) The parts of the form on a line; none if the line is a bad
/// form. The line must have one line feed, as its last byte, and at most 255 bytes
/// before it.
pub fn read_line(line: &[u8]) -> Option<Vec<Part<'_>>> {
    let (&last, body) = line.split_last()?;
    if last != b'\n' || body.len() > LINE_BYTES {
        return None;
    }
    let (form, rest) = form(body)?;
    rest.is_empty().then_some(form)
}

/// A bracket, one part or more with a single space between two, a bracket.
fn form(bytes: &[u8]) -> Option<(Vec<Part<'_>>, &[u8])> {
    let mut rest = bytes.strip_prefix(b"(")?;
    let mut parts = Vec::new();
    loop {
        let (part, after) = part(rest)?;
        parts.push(part);
        match after.split_first()? {
            (b' ', after) => rest = after,
            (b')', after) => return Some((parts, after)),
            _ => return None,
        }
    }
}

fn part(bytes: &[u8]) -> Option<(Part<'_>, &[u8])> {
    match bytes.first()? {
        b'(' => form(bytes).map(|(parts, rest)| (Part::Form(parts), rest)),
        b'0'..=b'9' => number(bytes),
        b'a'..=b'z' => {
            let (word, rest) = run(bytes, u8::is_ascii_lowercase);
            Some((Part::Word(word), rest))
        }
        _ => None,
    }
}

/// (rules T3, T4) No leading zeros. A number of any length is of good form.
fn number(bytes: &[u8]) -> Option<(Part<'_>, &[u8])> {
    let (digits, rest) = run(bytes, u8::is_ascii_digit);
    if digits.len() > 1 && digits[0] == b'0' {
        return None;
    }
    let value = digits.iter().fold(0u32, |value, digit| {
        let shifted = value.saturating_mul(10);
        shifted.saturating_add(u32::from(digit - b'0'))
    });
    Some((Part::Number(value), rest))
}

/// The bytes at the front that pass the test, and the rest.
fn run(bytes: &[u8], test: fn(&u8) -> bool) -> (&[u8], &[u8]) {
    let length = bytes.iter().take_while(|b| test(b)).count();
    bytes.split_at(length)
}

/// The pieces of a text: each with its line feed, the last perhaps without.
pub fn split_lines(text: &[u8]) -> impl Iterator<Item = &[u8]> {
    text.split_inclusive(|&b| b == b'\n')
}

/// The form as text, without a line feed.
pub fn print_form(parts: &[Part]) -> String {
    let printed: Vec<String> = parts.iter().map(print_part).collect();
    format!("({})", printed.join(" "))
}

fn print_part(part: &Part) -> String {
    match part {
        Part::Number(n) => n.to_string(),
        Part::Word(word) => String::from_utf8_lossy(word).into_owned(),
        Part::Form(parts) => print_form(parts),
    }
}
