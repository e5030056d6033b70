//! Joining in plain Rust, which the speed of the proved one is compared with, has the same bytes.

mod common;

use common::joins::{all_seen, count, good, planted, Seen};
use kernel::entry::{self, JOINED_BYTES};
use kernel::plain;
use model::cases;
use model::join::join;
use model::random::texts::{largest, pair, SHARES};
use model::random::Rng;

/// What stands in the lent bytes before the call.
const UNSAID: u8 = 7;

/// Plain Rust writes what the model prints and the proved function writes, and no byte after it.
fn same(texts: &[u8]) -> Vec<u8> {
    let (mut ours, mut theirs) = (vec![UNSAID; JOINED_BYTES], vec![UNSAID; JOINED_BYTES]);
    let length = plain::join::join(texts, &mut theirs);
    assert_eq!(entry::join(texts, &mut ours), length);
    assert!(ours == theirs, "{}", String::from_utf8_lossy(texts));
    theirs.truncate(length);
    assert!(theirs == join(texts), "{}", String::from_utf8_lossy(texts));
    theirs
}

#[test]
fn pairs_of_texts() {
    let mut seen = Seen::new();
    for seed in 0..6_000 {
        let input = pair(200_000 + seed);
        count(&mut seen, &input, &same(&input));
    }
    for made in planted(140) {
        assert_eq!(same(&made.input), made.printed);
        count(&mut seen, &made.input, &made.printed);
    }
    for input in good(141, 1_200) {
        assert!(same(&input).ends_with(b"(open)\n"));
        count(&mut seen, &input, b"");
    }
    all_seen(&seen, 100, [400, 200, 100], 4_500);
}

#[test]
fn cases_and_the_largest_texts() {
    let joins = cases::all_joins().expect("the cases are read");
    assert!(joins.len() >= 127, "{} cases", joins.len());
    for case in joins {
        assert_eq!(same(&case.texts), case.joined, "{}", case.at);
    }
    let mut rng = Rng::new(142);
    for share in SHARES.into_iter().cycle().take(20) {
        same(&largest(&mut rng, share).print());
    }
}

#[test]
fn too_little_room() {
    for room in [0, 1, 256, JOINED_BYTES - 1] {
        let mut lent = vec![UNSAID; room];
        assert_eq!(plain::join::join(b"(open)\n(open)\n", &mut lent), 0);
        assert!(lent.iter().all(|byte| *byte == UNSAID));
    }
}
