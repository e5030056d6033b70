//! A season of calls through one set of tables, compared with the model (tools/season).
//!
//!     season [CALLS] [SEED]

use kernel::entry;
use kernel::season::{season, Points};
use std::process::exit;
use std::time::Instant;

fn main() {
    let words: Vec<String> = std::env::args().skip(1).collect();
    let number = |at: usize, otherwise: u64| match words.get(at) {
        Some(word) => word.parse().expect("season [CALLS] [SEED]"),
        None => otherwise,
    };
    let (calls, seed) = (number(0, 10_000_000), number(1, 1));
    let points = Points {
        open: entry::open,
        call: entry::call,
    };
    let began = Instant::now();
    let [first, second] = season(points, calls, seed).unwrap_or_else(|difference| {
        println!("{difference}");
        exit(1)
    });
    println!("{first}\n\nover the last number\n{second}");
    println!("\n{} seconds", began.elapsed().as_secs());
}
