//! Bytes of a line as a terminal can show them, and marks under some of them.

use crate::form::Span;

/// No more of a line is shown than this.
const WIDEST: usize = 260;

/// One byte as it is shown.
fn shown_byte(byte: u8) -> String {
    match byte {
        b' '..=b'~' => char::from(byte).to_string(),
        b'\n' => String::new(),
        b'\t' => "\\t".to_string(),
        b'\r' => "\\r".to_string(),
        _ => format!("\\x{byte:02x}"),
    }
}

/// The line without its line feed; bytes that are not printable as `\x00`.
pub fn line(bytes: &[u8]) -> String {
    let shown: String = bytes.iter().take(WIDEST).map(|b| shown_byte(*b)).collect();
    match bytes.len() > WIDEST + 1 {
        true => format!("{shown}.. ({} bytes)", bytes.len()),
        false => shown,
    }
}

/// Marks `^^^` under the bytes of a span, for a line shown as `line` shows it.
pub fn marks(bytes: &[u8], span: Span) -> String {
    let width = |from: usize, to: usize| -> usize {
        let bytes = bytes.get(from..to.min(bytes.len())).unwrap_or(&[]);
        bytes.iter().map(|b| shown_byte(*b).len()).sum()
    };
    let (from, to) = (span.from.min(WIDEST), span.to.min(WIDEST));
    format!(
        "{}{}",
        " ".repeat(width(0, from)),
        "^".repeat(width(from, to).max(1))
    )
}
