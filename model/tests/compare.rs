//! The comparison with the definitions: its cases, smaller sessions, bits.

use model::compare::smaller::{prefixes, smaller};
use model::compare::{antt, bits, cases, Sizes};
use model::random::{self, PROFILES};
use model::run_session;
use std::collections::BTreeSet;

const SIZES: Sizes = Sizes {
    by_hand: 40,
    states: 12,
    pieces: 20,
    lines: 30,
    sessions: 6,
    chosen: 4,
    calls: 20,
    damaged: 10,
    altered: 52,
    tables: 20,
    single: 10,
    full: 6,
    words: 10,
    histories: 5,
    lent: 3,
    pages: 8,
    joins: 8,
};

/// Names are different, the numbers of cases are as asked, and the same seed
/// gives the same cases.
#[test]
fn cases_of_a_seed() {
    let all = cases(3, SIZES).unwrap();
    let names: BTreeSet<&str> = all.iter().map(|c| c.name.as_str()).collect();
    assert_eq!(names.len(), all.len());
    for (sort, count) in [
        ("session", 6),
        ("damaged", 10),
        ("state", 12),
        ("sound", 52),
        ("words", 10),
        ("lent", 3),
        ("page", 34),
        ("join", 67 + 60 + 8),
    ] {
        assert_eq!(all.iter().filter(|c| c.sort() == sort).count(), count);
    }
    let again = cases(3, SIZES).unwrap();
    let claims = |cases: &[model::compare::Case]| -> Vec<String> {
        cases.iter().map(|c| c.theorem()).collect()
    };
    assert_eq!(claims(&all), claims(&again));
    assert_ne!(claims(&all), claims(&cases(4, SIZES).unwrap()));
}

#[test]
fn smaller_sessions_are_shorter() {
    for (seed, profile) in (0..).zip(PROFILES) {
        let input = random::session(seed, profile, 30);
        for level in [1, 2] {
            let found = smaller(&input, level);
            assert!(found.iter().all(|s| s.len() < input.len()));
        }
        let output = run_session(&input);
        let opens = |p: &&Vec<u8>| p.windows(7).any(|w| w == b"(open)\n");
        for prefix in prefixes(&input).iter().filter(opens) {
            assert!(output.starts_with(&run_session(prefix)));
        }
    }
}

/// A line that the rest does not need is left out and later numbers lowered;
/// so is an entry.
#[test]
fn numbers_are_lowered() {
    let input = b"(node 1 (op 1 0 7) (op 1 1 7))\n(process 1 1)\n(open)\n(1 hold 1)\n(1 hold 2)\n(1 port 4)\n(1 ask 5 (4 2))\n";
    let found = [smaller(input, 1), smaller(input, 2)].concat();
    for expected in [
        &b"(node 1 (op 1 0 7) (op 1 1 7))\n(process 1 1)\n(open)\n(1 hold 2)\n(1 port 3)\n(1 ask 4 (3 2))\n"[..],
        b"(node 1 (op 1 1 7))\n(process 1 1)\n(open)\n(1 hold 1)\n(1 hold 1)\n(1 port 3)\n(1 ask 4 (3 2))\n",
    ] {
        let text = String::from_utf8_lossy(expected);
        assert!(found.iter().any(|s| s == expected), "{text}");
    }
}

#[test]
fn text_of_the_prover() {
    assert_eq!(antt::bytes(b"(1 \"\\\n"), "(bytes \"(1 \\\"\\\\\\n\")");
    assert_eq!(antt::bytes(b"a\t"), "(97 ∷ 9 ∷ [])");
    let runs = antt::runs(&[0, 0, 0, 5, 6, 6]);
    assert_eq!(runs, "((replicate 3 0 ++ (5 ∷ (replicate 2 6 ++ ([])))))");
}

/// The bits of a text that are 0, past its end all of them, give the text again.
#[test]
fn an_answer_from_its_bits() {
    for text in [&b"(no 8)\n"[..], b"(node 1)\n(open)\n"] {
        let zeros = (0..200).flat_map(|at| {
            let byte = text.get(at).copied().unwrap_or(0);
            let zeros = (0..7).filter(move |bit| byte >> bit & 1 == 0);
            zeros.map(move |bit| format!("bit-{at}-{bit}"))
        });
        let zeros: Vec<String> = zeros.collect();
        let names: Vec<&str> = zeros.iter().map(String::as_str).collect();
        let text = String::from_utf8_lossy(text);
        assert_eq!(bits::read_lines(&names), text);
        assert_eq!(Some(bits::read(&names).as_str()), text.lines().next());
    }
}
