//! Two texts joined by the crate, beside the independent model.

use model::join::join as printed;
use model::random::texts::{all_flaws, largest, pair, refused, Share, Size, LONGEST, SHARES};
use model::random::Rng;
use std::collections::BTreeMap;
use tablet::layout::{JOINED_BYTES, REPLY_BYTES};
use tablet::{join, Tables};

/// The crate gives what the model prints; its refusal, 0 for none. What is joined opens, and joined with itself it is
/// itself.
fn same(texts: &[u8]) -> u32 {
    let expected = String::from_utf8(printed(texts)).expect("letters and digits");
    match join(texts) {
        Ok(text) => {
            assert_eq!(text, expected);
            assert!(Tables::open(&text).is_ok(), "{text}");
            assert_eq!(join(format!("{text}{text}")), Ok(text));
            0
        }
        Err(refusal) => {
            assert_eq!(format!("{refusal}\n"), expected);
            assert!(!refusal.meaning().is_empty() && !refusal.remedy().is_empty());
            refusal.number()
        }
    }
}

#[test]
fn pairs_are_joined_as_by_the_model() {
    let mut seen = BTreeMap::new();
    for seed in 0..3_000 {
        *seen.entry(same(&pair(300_000 + seed))).or_insert(0) += 1;
    }
    for (k, least) in [
        (0, 1_500),
        (2, 400),
        (3, 100),
        (4, 100),
        (5, 80),
        (6, 150),
        (20, 30),
    ] {
        assert!(seen.get(&k) >= Some(&least), "{k}: {seen:?}");
    }
    assert_eq!(seen.len(), 7, "{seen:?}");
}

/// What was planted is what is given, with its line where one text has it.
#[test]
fn refusals_are_those_planted() {
    let mut rng = Rng::new(300);
    let (mut with_line, mut without) = (0, 0);
    for flaws in all_flaws() {
        let made = refused(&mut rng, Size::Small, &flaws);
        let refusal = join(&made.input).expect_err("refused");
        assert_eq!(format!("{refusal}\n").into_bytes(), made.printed);
        match refusal.line() {
            Some(line) => with_line += usize::from(line > 0),
            None => without += usize::from([5, 6, 20].contains(&refusal.number())),
        }
    }
    assert!(
        with_line >= 100 && without >= 50,
        "{with_line} with a line, {without} without"
    );
    assert_eq!(with_line + without, all_flaws().len());
}

/// (rule J11) There is room for the longest text, and for more: a reply for each node, each process and `(open)`.
#[test]
fn the_largest_texts() {
    let mut rng = Rng::new(301);
    for share in SHARES {
        let texts = largest(&mut rng, share).print();
        match same(&texts) {
            0 => assert_eq!(join(&texts).map(|text| text.len()), Ok(LONGEST)),
            refusal => assert_eq!((share, refusal), (Share::Different, 6)),
        }
    }
    assert_eq!(JOINED_BYTES, 97 * REPLY_BYTES);
}
