//! The parts of a whole call: soundness, reading, performing, printing, as
//! differences of what was counted.

use crate::count::Counts;
use crate::measure::Layer;
use crate::report::Result;

/// A line of the table for each side of each call.
pub fn table(results: &[Result]) -> String {
    let parts: Vec<&Result> = results
        .iter()
        .filter(|r| r.line.about.layer == Layer::Parts)
        .collect();
    let mut text = "### Parts of a whole call, in instructions\n\n| rows | requests | call | | soundness | reading | \
         performing | printing and the rest | whole | share of soundness |\n\
         |---:|---:|---|---|---:|---:|---:|---:|---:|---:|\n"
        .to_string();
    for four in parts.chunks_exact(4) {
        let counts: Option<Vec<Counts>> = four.iter().map(|r| r.counts).collect();
        let Some(counts) = counts else {
            continue;
        };
        let about = &four[0].line.about;
        let (rows, requests, name) = (about.size.rows, about.size.requests, &about.name);
        for (side, of) in [("proved", proved as fn(&Counts) -> f64), ("plain", plain)] {
            let count: Vec<f64> = counts.iter().map(of).collect();
            let [sound, empty, refused, whole] = count[..] else {
                continue;
            };
            text += &format!(
                "| {rows} | {requests} | {name} | {side} | {sound:.0} | {:.0} | {:.0} | {:.0} | {whole:.0} | {:.0} % |\n",
                refused - empty,
                whole - refused,
                empty - sound,
                100.0 * sound / whole,
            );
        }
    }
    text + "\n"
}

fn proved(counts: &Counts) -> f64 {
    counts.proved
}

fn plain(counts: &Counts) -> f64 {
    counts.plain
}
