//! The tables: one a layer, instructions and times of each operation.

use crate::count::Counts;
use crate::growth;
use crate::measure::{Layer, LAYERS};
use crate::pairs;
use crate::timed::Line;

/// An operation with its counts, if there are any.
pub struct Result<'a> {
    pub line: &'a Line,
    pub counts: Option<Counts>,
}

impl Result<'_> {
    /// Instructions of the proved function beside those of the plain one.
    pub fn ratio(&self) -> Option<f64> {
        self.counts.map(|counts| counts.proved / counts.plain)
    }
}

pub fn results<'a>(lines: &'a [Line], counts: &[Counts]) -> Vec<Result<'a>> {
    assert!(counts.is_empty() || counts.len() == lines.len());
    let counts = counts
        .iter()
        .copied()
        .map(Some)
        .chain(std::iter::repeat(None));
    let both = lines.iter().zip(counts);
    both.map(|(line, counts)| Result { line, counts }).collect()
}

/// The table of each layer, in markdown.
pub fn tables(results: &[Result]) -> String {
    let mut text = String::new();
    for (layer, title) in LAYERS {
        text += &format!(
            "### {title}\n\n| rows | requests | operation | instructions | plain | ratio | \
             ns | plain | ratio | bytes | times the floor | stack | plain |\n\
             |---:|---:|---|---:|---:|---:|---:|---:|---:|---:|---:|---:|---:|\n"
        );
        for result in results.iter().filter(|r| r.line.about.layer == layer) {
            text += &row(result);
        }
        text += "\n";
        text += &match layer {
            Layer::Pairs => pairs::beside_each(results),
            Layer::Growth => growth::sentences(results),
            _ => String::new(),
        };
    }
    text
}

fn row(result: &Result) -> String {
    let Line {
        about,
        times,
        proved_stack,
        plain_stack,
        ..
    } = result.line;
    let counts = result.counts.map(|c| (c.proved, c.plain));
    format!(
        "| {} | {} | {} | {} | {} | {} | {} | {proved_stack} | {plain_stack} |\n",
        about.size.rows,
        about.size.requests,
        about.name,
        beside(counts, 0),
        beside(*times, 1),
        about.bytes,
        floors(result),
    )
}

/// How many times as many instructions as it takes to load the bytes, 16 at a time.
fn floors(result: &Result) -> String {
    let loads = result.line.about.bytes.div_ceil(16) as f64;
    let times = result
        .counts
        .map(|counts| format!("{:.0}", counts.proved / loads));
    times.unwrap_or_default()
}

/// Two numbers and their ratio, or nothing.
fn beside(both: Option<(f64, f64)>, digits: usize) -> String {
    match both {
        None => "| |".to_string(),
        Some((proved, plain)) => {
            format!(
                "{proved:.digits$} | {plain:.digits$} | {:.2}",
                proved / plain
            )
        }
    }
}
