//! The aims, and a verdict on each.

use crate::measure::Layer;
use crate::report::Result;

/// Which operations an aim is about: a layer, how the name starts, the rows.
struct About {
    layer: Layer,
    starts: &'static str,
    rows: fn(usize) -> bool,
}

impl About {
    fn has(&self, result: &Result) -> bool {
        let about = &result.line.about;
        let rows = (self.rows)(about.size.rows);
        about.layer == self.layer && about.name.starts_with(self.starts) && rows
    }
}

/// What is held against the limit.
enum Measure {
    /// Instructions, divided by those of plain Rust.
    Ratio,
    Instructions,
    Stack,
    Allocations,
}

impl Measure {
    fn of(&self, result: &Result) -> Option<f64> {
        match self {
            Measure::Ratio => result.ratio(),
            Measure::Instructions => result.counts.map(|counts| counts.proved),
            Measure::Stack => Some(result.line.proved_stack as f64),
            Measure::Allocations => Some(result.line.allocations as f64),
        }
    }
}

struct Aim {
    says: &'static str,
    about: About,
    measure: Measure,
    most: f64,
}

const fn aim(
    says: &'static str,
    layer: Layer,
    starts: &'static str,
    rows: fn(usize) -> bool,
    measure: Measure,
    most: f64,
) -> Aim {
    let about = About {
        layer,
        starts,
        rows,
    };
    Aim {
        says,
        about,
        measure,
        most,
    }
}

const ANY: fn(usize) -> bool = |_| true;
const FULL: fn(usize) -> bool = |rows| rows == 1024;
/// 10 or 100 rows, less those that a call adds.
const SMALL: fn(usize) -> bool = |rows| (8..=10).contains(&rows);
const LARGE: fn(usize) -> bool = |rows| rows >= 98;

const AIMS: [Aim; 30] = [
    aim(
        "sound of full tables: at most half of 243,662 instructions",
        Layer::Rows,
        "sound",
        FULL,
        Measure::Instructions,
        121_831.0,
    ),
    aim(
        "sound: at most 1.2 of plain Rust",
        Layer::Rows,
        "sound",
        ANY,
        Measure::Ratio,
        1.2,
    ),
    aim(
        "look-ups: at most 1.2 of plain Rust",
        Layer::Rows,
        "look-up",
        ANY,
        Measure::Ratio,
        1.2,
    ),
    aim(
        "comes: at most 1.2 of plain Rust",
        Layer::Rows,
        "comes,",
        ANY,
        Measure::Ratio,
        1.2,
    ),
    aim(
        "chain: at most 1.2 of plain Rust",
        Layer::Rows,
        "chain",
        ANY,
        Measure::Ratio,
        1.2,
    ),
    aim(
        "lent: at most 1.2 of plain Rust",
        Layer::Rows,
        "lent",
        ANY,
        Measure::Ratio,
        1.2,
    ),
    aim(
        "removal of the newest of 1,024 rows: at most 0.3 of plain Rust",
        Layer::Rows,
        "removal of the newest row",
        FULL,
        Measure::Ratio,
        0.3,
    ),
    aim(
        "removal of half of 1,024 rows: at most 1.0 of plain Rust",
        Layer::Rows,
        "removal of the newer half",
        FULL,
        Measure::Ratio,
        1.0,
    ),
    aim(
        "removal of all of 1,024 rows: at most 1.0 of plain Rust",
        Layer::Rows,
        "removal of all rows",
        FULL,
        Measure::Ratio,
        1.0,
    ),
    aim(
        "removal of an old row of 1,024: at most 1.0 of plain Rust",
        Layer::Rows,
        "removal of the 8th oldest row",
        FULL,
        Measure::Ratio,
        1.0,
    ),
    aim(
        "stack of the rows' layer: at most 8 KB",
        Layer::Rows,
        "",
        ANY,
        Measure::Stack,
        8192.0,
    ),
    aim(
        "closing at 10 rows: at most 1.25 of plain Rust",
        Layer::Closing,
        "",
        SMALL,
        Measure::Ratio,
        1.25,
    ),
    aim(
        "closing at 100 rows and more: at most 1.1 of plain Rust",
        Layer::Closing,
        "",
        LARGE,
        Measure::Ratio,
        1.1,
    ),
    aim(
        "stack of a closing: at most 16 KB",
        Layer::Closing,
        "",
        ANY,
        Measure::Stack,
        16384.0,
    ),
    aim(
        "each call: at most 1.2 of plain Rust",
        Layer::Calls,
        "",
        ANY,
        Measure::Ratio,
        1.2,
    ),
    aim(
        "stack of a call: at most 12 KB",
        Layer::Calls,
        "",
        ANY,
        Measure::Stack,
        12288.0,
    ),
    aim(
        "no call allocates",
        Layer::Calls,
        "",
        ANY,
        Measure::Allocations,
        0.0,
    ),
    aim(
        "a whole call at 10 rows: at most 1.2 of plain Rust",
        Layer::Whole,
        "",
        SMALL,
        Measure::Ratio,
        1.2,
    ),
    aim(
        "a whole call at 100 rows and more: at most 1.0 of plain Rust",
        Layer::Whole,
        "",
        LARGE,
        Measure::Ratio,
        1.0,
    ),
    aim(
        "one pass for sixteen pairs: at most 1.2 of plain Rust",
        Layer::Pairs,
        "one pass",
        ANY,
        Measure::Ratio,
        1.2,
    ),
    aim(
        "comesall of sixteen pairs, whole or not: at most 1.2 of plain Rust",
        Layer::Pairs,
        "comesall",
        ANY,
        Measure::Ratio,
        1.2,
    ),
    aim(
        "an opening: at most 1.2 of plain Rust",
        Layer::Opening,
        "",
        ANY,
        Measure::Ratio,
        1.2,
    ),
    aim(
        "a page: at most 1.2 of plain Rust",
        Layer::Page,
        "",
        ANY,
        Measure::Ratio,
        1.2,
    ),
    aim(
        "two texts joined: at most 1.2 of plain Rust",
        Layer::Join,
        "",
        ANY,
        Measure::Ratio,
        1.2,
    ),
    aim(
        "stack of a whole call: at most 16 KB",
        Layer::Whole,
        "",
        ANY,
        Measure::Stack,
        16384.0,
    ),
    aim(
        "stack of an opening: at most 16 KB",
        Layer::Opening,
        "",
        ANY,
        Measure::Stack,
        16384.0,
    ),
    aim(
        "stack of joining: at most 16 KB",
        Layer::Join,
        "",
        ANY,
        Measure::Stack,
        16384.0,
    ),
    aim(
        "no whole call allocates",
        Layer::Whole,
        "",
        ANY,
        Measure::Allocations,
        0.0,
    ),
    aim(
        "no opening allocates",
        Layer::Opening,
        "",
        ANY,
        Measure::Allocations,
        0.0,
    ),
    aim(
        "no joining allocates",
        Layer::Join,
        "",
        ANY,
        Measure::Allocations,
        0.0,
    ),
];

/// A line for each aim: met or not, how many miss it, and the greatest value.
pub fn verdicts(results: &[Result]) -> String {
    AIMS.iter().map(|aim| verdict(aim, results)).collect()
}

fn verdict(aim: &Aim, results: &[Result]) -> String {
    let meant: Vec<&Result> = results.iter().filter(|r| aim.about.has(r)).collect();
    assert!(!meant.is_empty(), "nothing is measured for: {}", aim.says);
    let measured = meant.iter().filter_map(|r| Some((*r, aim.measure.of(r)?)));
    let measured: Vec<(&Result, f64)> = measured.collect();
    let greatest = measured.iter().max_by(|a, b| a.1.total_cmp(&b.1));
    let Some(&greatest) = greatest else {
        return format!("not measured: {}\n", aim.says);
    };
    let missed = measured
        .iter()
        .filter(|(_, value)| *value > aim.most)
        .count();
    let (result, most) = greatest;
    let about = &result.line.about;
    let (says, all, rows) = (aim.says, measured.len(), about.size.rows);
    let greatest = format!("the most is {}: {}, {rows} rows", shown(most), about.name);
    match missed {
        0 => format!("met: {says} ({greatest})\n"),
        _ => format!("not met: {says} ({missed} of {all} above it; {greatest})\n"),
    }
}

/// Ratios with two digits, counts with none.
fn shown(value: f64) -> String {
    match value < 100.0 && value.fract() != 0.0 {
        true => format!("{value:.2}"),
        false => format!("{value:.0}"),
    }
}
