//! Random opening texts that are accepted.

use super::prng::Rng;
use super::profile::Profile;
use crate::limits::{ALL_RIGHTS, ENTRIES, NODES, PROCESSES};

/// The numbers that an opening of a profile goes by.
struct Size {
    processes: (u32, u32),
    nodes: (u32, u32),
    entries: (u32, u32),
    subdirectories_percent: u32,
}

fn size(profile: Profile) -> Size {
    let (processes, nodes, entries, subdirectories_percent) = match profile {
        Profile::Tiny => ((1, 2), (1, 2), (1, 3), 30),
        Profile::Loans => ((2, 6), (1, 3), (2, 6), 30),
        Profile::Nested => ((2, 5), (1, 2), (1, 4), 10),
        Profile::Directories => ((2, 5), (2, 6), (1, 6), 65),
        Profile::Deep => ((1, 3), (1, 3), (1, 4), 45),
        Profile::Full => ((3, 64), (2, 32), (1, 16), 30),
    };
    Size {
        processes,
        nodes,
        entries,
        subdirectories_percent,
    }
}

/// An opening text with its forms in any order, ending in `(open)`.
pub fn opening(rng: &mut Rng, profile: Profile) -> Vec<u8> {
    let size = size(profile);
    let nodes = some_numbers(rng, size.nodes, NODES);
    let processes = some_numbers(rng, size.processes, PROCESSES);
    let mut forms = Vec::new();
    for node in &nodes {
        forms.push(node_form(rng, *node, &size, &nodes, &processes));
    }
    for process in &processes {
        let prime = rng.pick(&nodes).unwrap_or(1);
        forms.push(format!("(process {process} {prime})\n"));
    }
    rng.shuffle(&mut forms);
    (forms.concat() + "(open)\n").into_bytes()
}

/// Different numbers up to the limit: 1 and on, or any.
pub fn some_numbers(rng: &mut Rng, (low, high): (u32, u32), limit: u32) -> Vec<u32> {
    let count = rng.between(low, high) as usize;
    let mut numbers: Vec<u32> = (1..=limit).collect();
    if rng.percent(25) {
        rng.shuffle(&mut numbers);
    }
    numbers.truncate(count);
    numbers
}

fn node_form(rng: &mut Rng, node: u32, size: &Size, nodes: &[u32], processes: &[u32]) -> String {
    let mut text = format!("(node {node}");
    let count = rng.between(size.entries.0, size.entries.1);
    for _ in 0..count.min(ENTRIES as u32) {
        let rights = rights(rng);
        let entry = if rng.percent(size.subdirectories_percent) {
            format!(" (dir {} {rights})", rng.pick(nodes).unwrap_or(1))
        } else {
            let operation = rng.pick(&[0, 1, 2, 3, 255]).unwrap_or(0);
            let manager = rng.pick(processes).unwrap_or(1);
            format!(" (op {manager} {operation} {rights})")
        };
        // A line has at most 255 bytes.
        if text.len() + entry.len() < 250 {
            text += &entry;
        }
    }
    text + ")\n"
}

/// Most rows have all rights.
fn rights(rng: &mut Rng) -> u32 {
    if rng.percent(75) {
        return ALL_RIGHTS;
    }
    rng.between(0, ALL_RIGHTS)
}
