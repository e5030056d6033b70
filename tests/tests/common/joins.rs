//! Pairs of texts that are joined or refused, and which of it was printed.

use model::opening::read_text;
use model::random::texts::{alike, all_flaws, full, refused, related, Refused, Size, SIZES};
use model::random::Rng;
use std::collections::BTreeMap;

/// How often each sort of answer was seen.
pub type Seen = BTreeMap<String, usize>;

/// The sort of what is printed: `joined`; `first` or `second`, the text that is refused by itself, with its refusal; or
/// `both` with that of both.
pub fn sort(texts: &[u8], printed: &[u8]) -> String {
    let printed = std::str::from_utf8(printed).expect("letters, digits, spaces and brackets");
    let Some(refused) = printed.strip_prefix("(no ") else {
        return "joined".to_string();
    };
    let numbers = refused.strip_suffix(")\n").expect("one line");
    match numbers.split_once(' ') {
        Some((k, _)) if read_text(texts).is_err() => format!("first {k}"),
        Some((k, _)) => format!("second {k}"),
        None => format!("both {numbers}"),
    }
}

pub fn count(seen: &mut Seen, texts: &[u8], printed: &[u8]) {
    *seen.entry(sort(texts, printed)).or_default() += 1;
}

/// Every sort was seen, so often at least: 2, 3, 4 and 6 of either text, then 5, 6 and 20 of both.
pub fn all_seen(seen: &Seen, of_one: usize, of_both: [usize; 3], joined: usize) {
    for text in ["first", "second"] {
        for k in [2, 3, 4, 6] {
            let often = seen.get(&format!("{text} {k}"));
            assert!(often >= Some(&of_one), "{text} {k}: {seen:?}");
        }
    }
    for (k, least) in [5, 6, 20].into_iter().zip(of_both) {
        assert!(
            seen.get(&format!("both {k}")) >= Some(&least),
            "{k}: {seen:?}"
        );
    }
    let often = seen.get("joined").copied().unwrap_or_default();
    assert!(often >= joined, "joined: {seen:?}");
    assert_eq!(seen.len(), 11 + usize::from(often > 0), "{seen:?}");
}

/// Each flaw alone and with others, in texts of each size: what was planted is what must be printed.
pub fn planted(seed: u64) -> Vec<Refused> {
    let mut rng = Rng::new(seed);
    let each = all_flaws().into_iter();
    let sized = each.flat_map(|flaws| SIZES.map(|size| (size, flaws.clone())));
    sized
        .map(|(size, flaws)| refused(&mut rng, size, &flaws))
        .collect()
}

/// So many pairs that are joined: any, with a node of 16 entries, of texts that are alike.
pub fn good(seed: u64, count: usize) -> Vec<Vec<u8>> {
    let mut rng = Rng::new(seed);
    let each = (0..count).map(|at| {
        let size = [Size::Small, Size::Middle, Size::Small, Size::Large][at % 4];
        match at % 3 {
            0 => related(&mut rng, size).print(),
            1 => full(&mut rng, size),
            _ => alike(&mut rng, size),
        }
    });
    each.collect()
}
