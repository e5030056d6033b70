//! Pairs of texts that are refused: what is wrong is planted in a pair that is joined, so that what
//! must be printed is known from how it was made.

use super::super::prng::Rng;
use super::related::{count_of_both, print, related, Pair, Size};
use crate::limits::{ENTRIES, LAST_OPERATION, LINE_BYTES, NODES, PROCESSES};
use crate::opening::{Entry, Form};

/// What is wrong with a pair of texts; 0 is the first, 1 the second.
#[derive(Clone, Copy, PartialEq, Eq, Debug)]
pub enum Flaw {
    /// A line of a text with 2, 3, 4 or 6.
    Own(usize, u32),
    /// 5: what neither text gives is named in one of them.
    Missing(usize, Named),
    /// 5: an entry that both texts have names it, so that the second's is left out.
    MissingInBoth,
    /// 6: a joined node has so many entries.
    Crowded(usize),
    /// 20: a process of both texts has two prime nodes.
    Primes,
}

/// What a name is the name of.
#[derive(Clone, Copy, PartialEq, Eq, Debug)]
pub enum Named {
    Manager,
    Subdirectory,
    Prime,
}

/// Each flaw by itself, own ones first.
pub const FLAWS: [Flaw; 19] = [
    Flaw::Own(0, 2),
    Flaw::Own(0, 3),
    Flaw::Own(0, 4),
    Flaw::Own(0, 6),
    Flaw::Own(1, 2),
    Flaw::Own(1, 3),
    Flaw::Own(1, 4),
    Flaw::Own(1, 6),
    Flaw::Missing(0, Named::Manager),
    Flaw::Missing(0, Named::Subdirectory),
    Flaw::Missing(0, Named::Prime),
    Flaw::Missing(1, Named::Manager),
    Flaw::Missing(1, Named::Subdirectory),
    Flaw::Missing(1, Named::Prime),
    Flaw::MissingInBoth,
    Flaw::Crowded(ENTRIES + 1),
    Flaw::Crowded(ENTRIES + 2),
    Flaw::Crowded(2 * ENTRIES),
    Flaw::Primes,
];

impl Flaw {
    /// In the order in which refusals are looked for: the first text's, the second's, 5, 6, 20.
    pub fn rank(self) -> usize {
        match self {
            Flaw::Own(text, _) => text,
            Flaw::Missing(..) | Flaw::MissingInBoth => 2,
            Flaw::Crowded(_) => 3,
            Flaw::Primes => 4,
        }
    }
}

/// Flaws of which each text has one of its own at most.
pub type Flaws = Vec<Flaw>;

/// Each flaw alone, every two, and 5, 6 and 20 together in every way.
pub fn all_flaws() -> Vec<Flaws> {
    let mut found: Vec<Flaws> = FLAWS.iter().map(|flaw| vec![*flaw]).collect();
    for (at, one) in FLAWS.iter().enumerate() {
        for other in &FLAWS[at + 1..] {
            if one.rank() != other.rank() {
                found.push(vec![*one, *other]);
            }
        }
    }
    let of_rank = |rank: usize| FLAWS.into_iter().filter(move |flaw| flaw.rank() == rank);
    for missing in of_rank(2) {
        found.extend(of_rank(3).map(|crowded| vec![missing, crowded, Flaw::Primes]));
    }
    found
}

/// Texts that are refused, and what must be printed.
#[derive(Clone, Debug)]
pub struct Refused {
    pub input: Vec<u8>,
    pub printed: Vec<u8>,
}

/// A pair with these flaws and no others.
pub fn refused(rng: &mut Rng, size: Size, flaws: &[Flaw]) -> Refused {
    let mut pair = related(rng, size);
    let mut in_order = flaws.to_vec();
    // A missing name is planted last: it stays, and the others stay as they are.
    in_order.sort_by_key(|flaw| std::cmp::Reverse(flaw.rank()));
    for flaw in &in_order {
        plant(rng, &mut pair, *flaw);
    }
    let mut printed = String::new();
    let mut texts = pair.texts.clone().map(|forms| lines(&forms));
    for flaw in &in_order {
        printed = match *flaw {
            Flaw::Own(text, k) => {
                let at = plant_line(rng, &pair, &mut texts[text], k);
                format!("(no {k} {})\n", at + 1)
            }
            Flaw::Missing(..) | Flaw::MissingInBoth => "(no 5)\n".to_string(),
            Flaw::Crowded(_) => "(no 6)\n".to_string(),
            Flaw::Primes => "(no 20)\n".to_string(),
        };
    }
    // What is cut off ends the input.
    let whole = texts[0].last().is_some_and(|line| line == b"(open)\n");
    Refused {
        input: texts[..1 + usize::from(whole)].concat().concat(),
        printed: printed.into_bytes(),
    }
}

/// The lines of a text, the last of them `(open)`.
fn lines(forms: &[Form]) -> Vec<Vec<u8>> {
    let text = print(forms);
    let lines = text.split_inclusive(|b| *b == b'\n');
    lines.map(<[u8]>::to_vec).collect()
}

/// A flaw of both texts. What a text gives stays the same.
fn plant(rng: &mut Rng, pair: &mut Pair, flaw: Flaw) {
    match flaw {
        Flaw::Own(..) => {}
        Flaw::Crowded(count) => crowd(rng, pair, count),
        Flaw::Primes => other_prime(rng, pair),
        Flaw::Missing(text, Named::Prime) => {
            let missing = missing(rng, &pair.nodes, NODES);
            if let Some(prime) = some_prime(rng, &mut pair.texts[text]) {
                *prime = missing;
            }
        }
        Flaw::Missing(text, named) => {
            let entry = missing_entry(rng, pair, named);
            if let Some(entries) = some_entries(rng, &mut pair.texts[text]) {
                put(rng, entries, entry);
            }
        }
        Flaw::MissingInBoth => {
            let named = rng.pick(&[Named::Manager, Named::Subdirectory]);
            let entry = missing_entry(rng, pair, named.unwrap_or(Named::Manager));
            let node = pair.nodes[0];
            for text in &mut pair.texts {
                if let Some(entries) = entries_of(text, node) {
                    put(rng, entries, entry);
                }
            }
        }
    }
}

/// A number up to the limit that neither text gives.
fn missing(rng: &mut Rng, given: &[u32], limit: u32) -> u32 {
    let free: Vec<u32> = (1..=limit).filter(|n| !given.contains(n)).collect();
    rng.pick(&free).expect("a number is free")
}

fn missing_entry(rng: &mut Rng, pair: &Pair, named: Named) -> Entry {
    let rights = rng.between(0, 7);
    match named {
        Named::Manager => Entry::Op {
            manager: missing(rng, &pair.processes, PROCESSES),
            operation: rng.between(0, LAST_OPERATION),
            rights,
        },
        _ => Entry::Dir {
            node: missing(rng, &pair.nodes, NODES),
            rights,
        },
    }
}

/// The entry at any position, in the place of another where there are as many as there may be.
fn put(rng: &mut Rng, entries: &mut Vec<Entry>, entry: Entry) {
    match entries.len() < ENTRIES {
        true => entries.insert(rng.below(entries.len() + 1), entry),
        false => entries[rng.below(ENTRIES)] = entry,
    }
}

fn entries_of(text: &mut [Form], number: u32) -> Option<&mut Vec<Entry>> {
    text.iter_mut().find_map(|form| match form {
        Form::Node { node, entries } if *node == number => Some(entries),
        _ => None,
    })
}

fn some_entries<'a>(rng: &mut Rng, text: &'a mut [Form]) -> Option<&'a mut Vec<Entry>> {
    let nodes = text.iter().filter_map(|form| match form {
        Form::Node { node, .. } => Some(*node),
        _ => None,
    });
    let node = rng.pick(&nodes.collect::<Vec<_>>())?;
    entries_of(text, node)
}

fn some_prime<'a>(rng: &mut Rng, text: &'a mut [Form]) -> Option<&'a mut u32> {
    let primes = text.iter_mut().filter_map(|form| match form {
        Form::Process { prime, .. } => Some(prime),
        _ => None,
    });
    let mut primes: Vec<&mut u32> = primes.collect();
    let at = rng.below(primes.len());
    (at < primes.len()).then(|| primes.swap_remove(at))
}

/// The first node, which both texts give, has so many entries when it is joined, 2 to 32; the
/// second text has as many equal ones beside them as it has room for, or fewer.
pub fn crowd(rng: &mut Rng, pair: &mut Pair, count: usize) {
    let manager = rng.pick(&pair.processes).unwrap_or(1);
    let rights = rng.between(0, 7);
    let mut operations: Vec<u32> = (0..=LAST_OPERATION).collect();
    rng.shuffle(&mut operations);
    let entries = operations.into_iter().map(|operation| Entry::Op {
        manager,
        operation,
        rights,
    });
    let entries: Vec<Entry> = entries.take(count).collect();
    let least = count.saturating_sub(ENTRIES).max(1);
    let split = rng.between(least as u32, (count - 1).min(ENTRIES) as u32) as usize;
    let (first, new) = entries.split_at(split);
    let mut second = new.to_vec();
    for _ in 0..rng.below(ENTRIES + 1 - new.len()) {
        second.extend(rng.pick(&entries));
    }
    rng.shuffle(&mut second);
    assert_eq!(count_of_both(first, &second), count);
    let node = pair.nodes[0];
    for (text, crowded) in pair.texts.iter_mut().zip([first.to_vec(), second]) {
        if let Some(entries) = entries_of(text, node) {
            *entries = crowded;
        }
    }
}

/// The first process, which both texts give, has another prime node in one of them.
fn other_prime(rng: &mut Rng, pair: &mut Pair) {
    let first = pair.processes[0];
    let text = rng.below(2);
    for form in &mut pair.texts[text] {
        let Form::Process { process, prime } = form else {
            continue;
        };
        let others: Vec<u32> = pair.nodes.iter().copied().filter(|n| n != prime).collect();
        if *process == first {
            *prime = rng.pick(&others).unwrap_or(*prime);
        }
    }
}

/// Lines with 2.
const BAD: [&[u8]; 14] = [
    b"",
    b"x",
    b"()",
    b"(node)",
    b"(node 01)",
    b"(node 1 )",
    b"(Node 1)",
    b"(node 1 (op 1 0))",
    b"(node 1 (dir 1 0 0))",
    b"(process 1)",
    b"(open) ",
    b"(open)\r",
    b"(open 1)",
    b"(node 1 (op 1 0 7)\xff)",
];

/// Lines with 3, whatever comes before them.
const OUT_OF_RANGE: [&str; 16] = [
    "(node 0)",
    "(node 33)",
    "(node 4294967297)",
    "(process 0 1)",
    "(process 65 1)",
    "(process 1 0)",
    "(process 1 33)",
    "(node 1 (op 0 0 7))",
    "(node 1 (op 65 0 7))",
    "(node 1 (op 1 256 7))",
    "(node 1 (op 1 0 8))",
    "(node 1 (dir 0 7))",
    "(node 1 (dir 33 7))",
    "(node 1 (dir 1 8))",
    "(node 1 (op 1 0 7) (dir 1 18446744073709551617))",
    "(node 33 (op 65 256 8))",
];

/// A line with this refusal in the text; answers its position.
fn plant_line(rng: &mut Rng, pair: &Pair, lines: &mut Vec<Vec<u8>>, k: u32) -> usize {
    let at = rng.below(lines.len());
    match k {
        2 => plant_bad(rng, lines, at),
        3 => {
            let line = rng.pick(&OUT_OF_RANGE).unwrap_or("(node 0)");
            lines.insert(at, format!("{line}\n").into_bytes());
            at
        }
        4 => plant_twice(rng, pair, lines),
        _ => plant_crowded(rng, pair, lines),
    }
}

/// The text ends before this line; the line is too long; it is cut off; or it is of bad form.
fn plant_bad(rng: &mut Rng, lines: &mut Vec<Vec<u8>>, at: usize) -> usize {
    match rng.below(8) {
        0 => lines.truncate(at),
        1 => {
            let too_long = "1".repeat(LINE_BYTES - 6);
            lines.insert(at, format!("(node {too_long})\n").into_bytes());
        }
        2 => {
            lines.truncate(at + 1);
            lines[at].pop();
        }
        _ => {
            let line = rng.pick(&BAD).unwrap_or(b"x");
            lines.insert(at, [line, b"\n"].concat());
        }
    }
    at
}

/// A node or a process that an earlier line gives.
fn plant_twice(rng: &mut Rng, pair: &Pair, lines: &mut Vec<Vec<u8>>) -> usize {
    let given = rng.below(lines.len() - 1);
    let text = String::from_utf8_lossy(&lines[given]).into_owned();
    let words: Vec<&str> = text
        .trim_end()
        .trim_matches(['(', ')'])
        .split(' ')
        .collect();
    let other = match words[0] {
        "node" if rng.percent(50) => {
            let entries = vec![pair.entry(rng)];
            let node = words[1].parse().unwrap_or(1);
            Form::Node { node, entries }.print()
        }
        "process" if rng.percent(50) => {
            let prime = rng.pick(&pair.nodes).unwrap_or(1);
            let process = words[1].parse().unwrap_or(1);
            Form::Process { process, prime }.print()
        }
        _ => text.clone(),
    };
    let at = given + 1 + rng.below(lines.len() - given - 1);
    lines.insert(at, other.into_bytes());
    at
}

/// A node of more entries than there may be.
fn plant_crowded(rng: &mut Rng, pair: &Pair, lines: &mut [Vec<u8>]) -> usize {
    let nodes = (0..lines.len()).filter(|at| lines[*at].starts_with(b"(node "));
    let at = rng.pick(&nodes.collect::<Vec<_>>()).unwrap_or(0);
    let count = lines[at].iter().filter(|b| **b == b'(').count() - 1;
    lines[at].truncate(lines[at].len() - 2);
    for _ in count..=ENTRIES {
        lines[at].extend(pair.entry(rng).print().bytes());
    }
    lines[at].extend(b")\n");
    at
}
