//! Joining two texts. What is printed is read here apart from the model: lines are split at their
//! brackets, entries are compared as texts.

use model::cases;
use model::join::join;
use model::random::texts::{
    alike, all_flaws, full, largest, pair, refused, related, Flaw, Share, Size, FLAWS, LONGEST,
    SHARES, SIZES,
};
use model::random::Rng;
use model::session::open;
use model::sound;
use std::collections::{BTreeMap, BTreeSet};

fn text(bytes: &[u8]) -> String {
    String::from_utf8_lossy(bytes).into_owned()
}

fn joined(input: &str) -> String {
    text(&join(input.as_bytes()))
}

/// Lines as they are written here: `|` for a line feed.
fn lines(text: &str) -> String {
    text.replace('|', "\n")
}

/// A text's nodes with their entries, and its processes with their prime nodes, in its order.
#[derive(Default, PartialEq, Debug)]
struct Listed {
    nodes: Vec<(u32, Vec<String>)>,
    processes: Vec<(u32, u32)>,
}

/// The lines of a text before its `(open)`, and the bytes after it.
fn listed(text: &str) -> (Listed, &str) {
    let mut listed = Listed::default();
    let mut rest = text;
    loop {
        let (line, after) = rest.split_once('\n').expect("a line");
        rest = after;
        let inside = line.strip_prefix('(').unwrap().strip_suffix(')').unwrap();
        let number = |text: &str| text.parse::<u32>().unwrap();
        match inside.split_once(' ') {
            None => {
                assert_eq!(inside, "open");
                return (listed, rest);
            }
            Some(("node", node)) => {
                let mut parts = node.split(" (");
                let node = number(parts.next().unwrap());
                let entries = parts.map(|e| e.strip_suffix(')').unwrap().to_string());
                listed.nodes.push((node, entries.collect()));
            }
            Some(("process", numbers)) => {
                let (process, prime) = numbers.split_once(' ').unwrap();
                listed.processes.push((number(process), number(prime)));
            }
            Some(other) => panic!("{other:?} is no form"),
        }
    }
}

fn rises(numbers: impl Iterator<Item = u32>) -> bool {
    let numbers: Vec<u32> = numbers.collect();
    numbers.windows(2).all(|two| two[0] < two[1])
}

/// All that the rule says of the joined text of two texts.
fn check(input: &str) -> Listed {
    let (first, rest) = listed(input);
    let (second, _) = listed(rest);
    let printed = joined(input);
    let (found, rest) = listed(&printed);
    assert_eq!(rest, "");
    // Nodes first, each kind in rising number.
    let last_node = printed.rfind("(node ").unwrap_or(0);
    assert!(printed.find("(process ").is_none_or(|at| at > last_node));
    assert!(rises(found.nodes.iter().map(|(n, _)| *n)), "{printed}");
    assert!(rises(found.processes.iter().map(|(p, _)| *p)), "{printed}");
    // All of either text, and nothing else.
    let all: BTreeSet<(u32, u32)> = [&first, &second]
        .iter()
        .flat_map(|t| t.processes.clone())
        .collect();
    assert_eq!(all, found.processes.iter().copied().collect(), "{printed}");
    let nodes = |t: &Listed| t.nodes.iter().cloned().collect::<BTreeMap<_, _>>();
    let (first, second, node_entries) = (nodes(&first), nodes(&second), nodes(&found));
    let numbers: BTreeSet<u32> = first.keys().chain(second.keys()).copied().collect();
    assert_eq!(numbers, node_entries.keys().copied().collect(), "{printed}");
    for (node, entries) in &node_entries {
        check_entries(entries, first.get(node), second.get(node));
    }
    // It opens under the old rules, as tables that are sound.
    let (tables, answer, bytes) = open(printed.as_bytes());
    assert!(
        answer.accepted() && sound(&tables) && bytes == printed.len(),
        "{printed}"
    );
    let count: usize = node_entries.values().map(Vec::len).sum();
    assert_eq!(tables.rows.len(), count);
    found
}

/// The entries of a joined node: each as often, and in the order, that the rule says.
fn check_entries(found: &[String], first: Option<&Vec<String>>, second: Option<&Vec<String>>) {
    assert!(found.len() <= 16);
    let (first, second) = match (first, second) {
        (Some(first), Some(second)) => (first, second),
        (alone, other) => {
            assert_eq!(Some(found), alone.or(other).map(Vec::as_slice));
            return;
        }
    };
    let often = |of: &[String], entry: &String| of.iter().filter(|e| *e == entry).count();
    for entry in first.iter().chain(second).chain(found) {
        let expected = match often(first, entry) {
            0 => often(second, entry).min(1),
            count => count,
        };
        assert_eq!(often(found, entry), expected, "{entry} in {found:?}");
    }
    assert!(found.starts_with(first), "{found:?}");
    let place = |entry: &String| second.iter().position(|e| e == entry).unwrap() as u32;
    assert!(rises(found[first.len()..].iter().map(place)), "{found:?}");
}

/// The refusal that is printed, and its line.
fn refusal(printed: &str) -> Option<(u32, Option<u32>)> {
    let numbers = printed.strip_prefix("(no ")?.strip_suffix(")\n")?;
    let mut numbers = numbers.split(' ').map(|n| n.parse::<u32>().unwrap());
    Some((numbers.next()?, numbers.next()))
}

#[test]
fn two_cemeteries() {
    let first =
        "(process 2 1)|(node 3 (dir 1 7) (op 64 0 1) (dir 1 7))|(node 1)|(process 1 3)|(open)|";
    let second =
        "(node 32 (op 1 5 7) (op 1 5 7))|(process 64 32)|(node 3 (op 64 0 1) (dir 1 7) (dir 32 7) \
        (op 64 0 0) (dir 32 7))|(process 2 1)|(open)|";
    let expected = "(node 1)|(node 3 (dir 1 7) (op 64 0 1) (dir 1 7) (dir 32 7) (op 64 0 0))|\
        (node 32 (op 1 5 7) (op 1 5 7))|(process 1 3)|(process 2 1)|(process 64 32)|(open)|";
    let input = lines(&format!("{first}{second}"));
    assert_eq!(joined(&input), lines(expected));
    assert_eq!(joined(&(input + "(x")), lines(expected));
    assert_eq!(joined(&lines(first)), "(no 2 1)\n");
    assert_eq!(joined("(open)\n(open)\n"), "(open)\n");
    assert_eq!(joined(""), "(no 2 1)\n");
    // By itself each text has a name that is not listed.
    for one in [first, second] {
        assert_eq!(open(lines(one).as_bytes()).1.refusal(), Some(5));
    }
}

/// The texts of conformance/, all of them.
#[test]
fn conformance_joins() {
    let joins = cases::joins_of_conformance().unwrap();
    assert_eq!(joins.len(), 60);
    let mut refusals = BTreeMap::new();
    for case in joins {
        assert_eq!(text(&join(&case.texts)), text(&case.joined), "{}", case.at);
        match refusal(&text(&case.joined)) {
            Some((k, _)) => *refusals.entry(k).or_insert(0) += 1,
            None => drop(check(&text(&case.texts))),
        }
    }
    assert_eq!(
        refusals,
        BTreeMap::from([(2, 11), (3, 4), (5, 3), (6, 1), (20, 2)])
    );
}

/// Pairs that are joined, of every size; some entries are left out, some stand more than once.
#[test]
fn related_pairs() {
    let mut rng = Rng::new(110);
    let (mut left_out, mut equal, mut full_nodes) = (0, 0, 0);
    let sizes = SIZES.into_iter().zip([1500, 600, 60]);
    for size in sizes.flat_map(|(size, count)| vec![size; count]) {
        let input = match rng.below(5) {
            0 => full(&mut rng, size),
            1 => alike(&mut rng, size),
            _ => related(&mut rng, size).print(),
        };
        let input = text(&input);
        let found = check(&input);
        let (first, rest) = listed(&input);
        let count = |t: &Listed| t.nodes.iter().map(|(_, e)| e.len()).sum::<usize>();
        left_out += count(&first) + count(&listed(rest).0) - count(&found);
        for (_, entries) in &found.nodes {
            equal += entries.len() - entries.iter().collect::<BTreeSet<_>>().len();
            full_nodes += usize::from(entries.len() == 16);
        }
    }
    assert!(
        left_out > 10_000 && equal > 2_000,
        "{left_out} left out, {equal} equal"
    );
    assert!(full_nodes > 400, "{full_nodes} full nodes");
}

/// A text with itself, or with `(open)` alone, gives its forms in order; so does what is joined.
#[test]
fn a_text_with_itself() {
    let mut rng = Rng::new(1);
    for size in SIZES.into_iter().cycle().take(300) {
        let input = text(&related(&mut rng, size).print());
        let one = joined(&input);
        let mut shuffled: Vec<&str> = one.split_inclusive('\n').collect();
        shuffled.pop();
        rng.shuffle(&mut shuffled);
        let other = shuffled.concat() + "(open)\n";
        for input in [
            format!("{one}{one}"),
            format!("{one}(open)\n"),
            format!("(open)\n{one}"),
            format!("{other}{other}"),
            format!("{other}{one}"),
            format!("{other}(open)\n"),
            format!("(open)\n{other}"),
        ] {
            assert_eq!(joined(&input), one);
        }
    }
}

/// What was planted is what is printed, alone and with every other: the first text's 2, 3, 4 or 6,
/// the second's, 5, 6, 20. Every kind is seen.
#[test]
fn refusals_in_their_order() {
    let mut rng = Rng::new(20);
    let mut seen: BTreeMap<String, usize> = BTreeMap::new();
    for flaws in all_flaws() {
        for size in [Size::Small, Size::Small, Size::Middle, Size::Large] {
            let made = refused(&mut rng, size, &flaws);
            let printed = text(&made.printed);
            let input = text(&made.input);
            assert_eq!(text(&join(&made.input)), printed, "{flaws:?}\n{input}");
            let own = match flaws.iter().find(|flaw| matches!(flaw, Flaw::Own(..))) {
                Some(Flaw::Own(0, _)) => "first",
                Some(_) => "second",
                None => "both",
            };
            let (k, line) = refusal(&printed).unwrap();
            assert_eq!(line.is_some(), own != "both");
            *seen.entry(format!("{own} {k}")).or_default() += 1;
        }
    }
    for text in ["first", "second"] {
        for k in [2, 3, 4, 6] {
            assert!(seen[&format!("{text} {k}")] >= 40, "{seen:?}");
        }
    }
    for (k, count) in [(5, 150), (6, 20), (20, 4)] {
        assert!(seen[&format!("both {k}")] >= count, "{seen:?}");
    }
    assert_eq!(seen.len(), 11);
}

/// Flaws that are planted one by one: a joined node of 16 entries is none.
#[test]
fn sixteen_entries_and_seventeen() {
    let mut rng = Rng::new(16);
    for _ in 0..200 {
        let input = text(&full(&mut rng, Size::Middle));
        let found = check(&input);
        assert!(found.nodes.iter().any(|(_, entries)| entries.len() == 16));
        let crowded = refused(&mut rng, Size::Middle, &[Flaw::Crowded(17)]);
        assert_eq!(join(&crowded.input), b"(no 6)\n");
    }
    assert_eq!(FLAWS.len(), 19);
}

#[test]
fn largest_texts() {
    let mut rng = Rng::new(8501);
    for share in SHARES {
        let input = text(&largest(&mut rng, share).print());
        if share == Share::Different {
            assert_eq!(joined(&input), "(no 6)\n");
            continue;
        }
        let found = check(&input);
        assert_eq!((found.nodes.len(), found.processes.len()), (32, 64));
        assert_eq!(joined(&input).len(), LONGEST, "{share:?}");
    }
}

/// Cut off anywhere, a pair that would be joined has 2 at the line begun, counted in its text; what
/// follows it changes nothing.
#[test]
fn cut_off_and_followed() {
    let mut rng = Rng::new(2);
    for _ in 0..40 {
        let input = text(&related(&mut rng, Size::Small).print());
        let printed = joined(&input);
        let second = input.len() - listed(&input).1.len();
        for cut in 0..input.len() {
            let begun = if cut < second { 0 } else { second };
            let line = input[begun..cut].matches('\n').count() + 1;
            assert_eq!(joined(&input[..cut]), format!("(no 2 {line})\n"), "{cut}");
        }
        for after in ["x", "\n", "(open)\n", "(node 0)\n", "(node 1)\n(open)\n"] {
            assert_eq!(joined(&format!("{input}{after}")), printed);
        }
    }
}

/// A text by itself is refused as an opening is, but for 5.
#[test]
fn own_refusals_are_those_of_openings() {
    let (mut first, mut second) = (0, 0);
    for seed in 0..4_000 {
        let input = pair(seed);
        let printed = join(&input);
        let own =
            |text: &[u8]| Some(open(text).1).filter(|a| !matches!(a.refusal(), None | Some(5)));
        if let Some(answer) = own(&input) {
            assert_eq!(text(&printed), text(&answer.print()), "seed {seed}");
            first += 1;
            continue;
        }
        let end = b"(open)\n";
        let at = input.windows(7).position(|w| w == end).expect("`(open)`") + 7;
        match own(&input[at..]) {
            Some(answer) => {
                assert_eq!(text(&printed), text(&answer.print()), "seed {seed}");
                second += 1;
            }
            None => assert!(refusal(&text(&printed)).is_none_or(|(_, line)| line.is_none())),
        }
    }
    assert!(
        first > 600 && second > 600,
        "{first} first, {second} second"
    );
}

/// Any pair: a text that opens, or a refusal; each so often at least.
#[test]
fn any_pair() {
    let mut seen: BTreeMap<u32, usize> = BTreeMap::new();
    for seed in 0..4_000 {
        let printed = text(&join(&pair(seed)));
        match refusal(&printed) {
            Some((k, line)) => {
                assert!(line.is_none_or(|n| (1..=97).contains(&n) && [2, 3, 4, 6].contains(&k)));
                assert!(line.is_some() || [5, 6, 20].contains(&k));
                *seen.entry(k).or_default() += 1;
            }
            None => {
                assert!(open(printed.as_bytes()).1.accepted(), "seed {seed}");
                assert!(printed.len() <= LONGEST);
                *seen.entry(0).or_default() += 1;
            }
        }
        assert_eq!(text(&join(&pair(seed))), printed);
    }
    for (k, count) in [
        (0, 1_500),
        (2, 500),
        (3, 100),
        (4, 100),
        (5, 100),
        (6, 100),
        (20, 20),
    ] {
        assert!(seen.get(&k).is_some_and(|n| *n >= count), "{k}: {seen:?}");
    }
    assert_eq!(seen.len(), 7, "{seen:?}");
}

/// Any bytes: a refusal with its line, or a text.
#[test]
fn any_bytes() {
    let mut rng = Rng::new(43);
    let alphabet = b"(( )) \n\n0123456789 node process open op dir";
    for round in 0..20_000 {
        let length = rng.below(80);
        let byte = |_| match round % 2 {
            0 => rng.word() as u8,
            _ => rng.pick(alphabet).unwrap_or(0),
        };
        let mut bytes = b"(open)\n".repeat(round % 3);
        bytes.extend((0..length).map(byte));
        let printed = text(&join(&bytes));
        match round % 3 {
            2 => assert_eq!(printed, "(open)\n"),
            _ => assert!(refusal(&printed).is_some_and(|(_, line)| line.is_some())),
        }
    }
}
