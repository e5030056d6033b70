//! Texts at the limits of lines, of nodes' entries and of the pairs of a comesall.

use crate::form::split_lines;
use crate::limits::{ENTRIES, LINE_BYTES, PAIRS};
use crate::random::Rng;

/// The text with a number of one line lengthened so that the line has one
/// byte less than it may have, as many, or one more than 255
/// before its line feed (rule T1). The form stays good, since numbers of any length are.
pub fn stretched(rng: &mut Rng, text: &[u8]) -> Vec<u8> {
    let bytes = LINE_BYTES + rng.below(3) - 1;
    with_line(
        rng,
        text,
        |_| true,
        |line| {
            let digits = line.iter().rposition(|b| b.is_ascii_digit());
            let (Some(at), Some(short)) = (digits, (bytes + 1).checked_sub(line.len())) else {
                return;
            };
            line.splice(at..at, vec![b'1'; short]);
        },
    )
}

/// The text with the last entry of a node, or the last pair of a comesall, repeated, to as many as
/// there may be, one less or one more.
pub fn crowded(rng: &mut Rng, text: &[u8]) -> Vec<u8> {
    let beyond = rng.below(3);
    let node = |line: &[u8]| line.starts_with(b"(node");
    let comesall = |line: &[u8]| line.starts_with(b"(comesall");
    let listing = |line: &[u8]| (node(line) || comesall(line)) && line.ends_with(b"))\n");
    with_line(rng, text, listing, |line| {
        let most = if node(line) { ENTRIES } else { PAIRS };
        let entries = most + beyond - 1;
        let count = line.iter().filter(|b| **b == b'(').count() - 1;
        let Some(start) = line.windows(2).rposition(|w| w == b" (") else {
            return;
        };
        let end = line.len() - 2;
        let entry = line[start..end].to_vec();
        let more = entry.repeat(entries.saturating_sub(count));
        line.splice(end..end, more);
    })
}

/// The text with one of the lines that pass the test changed.
fn with_line(
    rng: &mut Rng,
    text: &[u8],
    test: impl Fn(&[u8]) -> bool,
    change: impl FnOnce(&mut Vec<u8>),
) -> Vec<u8> {
    let mut lines: Vec<Vec<u8>> = split_lines(text).map(<[u8]>::to_vec).collect();
    let passing = (0..lines.len()).filter(|at| test(&lines[*at]));
    let at = rng.pick(&passing.collect::<Vec<_>>());
    if let Some(line) = at.and_then(|at| lines.get_mut(at)) {
        change(line);
    }
    lines.concat()
}
