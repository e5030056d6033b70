//! `tablet_join` on pairs of texts and on any bytes, in room of any size: against the model, and
//! against forms that are put in order here. What it writes is opened by the entry point `open`.

mod common;

use common::joins::{all_seen, count, good, planted, Seen};
use common::words;
use kernel::entry::{self, join, open, JOINED_BYTES, REPLY_BYTES};
use kernel::layout::{PROCESS_WORDS, TABLES_WORDS};
use model::cases;
use model::join as models;
use model::random::texts::{largest, pair, Share, LONGEST, SHARES};
use model::random::Rng;
use model::session;

/// What stands in the lent bytes before.
const PAINT: u8 = 0xa5;

/// What is written into so many lent bytes; the bytes after it stay, and so do the texts.
fn written(texts: &[u8], room: usize) -> Vec<u8> {
    let (before, mut lent) = (texts.to_vec(), vec![PAINT; room]);
    let length = join(texts, &mut lent);
    assert!(
        lent[length..].iter().all(|byte| *byte == PAINT),
        "{length} of {room} bytes"
    );
    assert!(texts == before, "texts changed");
    lent.truncate(length);
    lent
}

/// A text, for failures.
fn shown(bytes: &[u8]) -> String {
    String::from_utf8_lossy(bytes).into_owned()
}

/// The same as the model's, in just enough room and in more; it is what is given.
fn agrees(texts: &[u8]) -> Vec<u8> {
    let expected = models::join(texts);
    for room in [JOINED_BYTES, JOINED_BYTES + 1, JOINED_BYTES + 4_096] {
        let found = written(texts, room);
        assert_eq!(
            shown(&found),
            shown(&expected),
            "{room} bytes for\n{}",
            shown(texts)
        );
    }
    expected
}

#[test]
fn pairs_of_conformance() {
    let pairs = cases::joins_of_conformance().expect("the pairs are there");
    assert_eq!(pairs.len(), 60);
    for case in pairs {
        assert_eq!(agrees(&case.texts), case.joined, "{}", case.at);
    }
}

#[test]
fn random_pairs() {
    let mut seen = Seen::new();
    for seed in 0..12_000 {
        let input = pair(100_000 + seed);
        count(&mut seen, &input, &agrees(&input));
    }
    all_seen(&seen, 150, [400, 400, 200], 6_500);
}

/// What was planted is what is written.
#[test]
fn refusals_of_every_kind() {
    let mut seen = Seen::new();
    for made in (130..134).flat_map(planted) {
        assert_eq!(shown(&agrees(&made.input)), shown(&made.printed));
        count(&mut seen, &made.input, &made.printed);
    }
    all_seen(&seen, 144, [640, 72, 12], 0);
}

/// The text is opened by the entry point: its reply, and every word afterwards, are those of the model.
fn opens(text: &[u8]) {
    let (mut tables, mut records) = (vec![7; TABLES_WORDS], vec![7; PROCESS_WORDS]);
    let mut reply = [0; REPLY_BYTES];
    let length = open(&mut tables, &mut records, text, &mut reply);
    assert_eq!(shown(&reply[..length]), "(ok 0)\n", "{}", shown(text));
    assert!((tables, records) == words(&session::open(text).0));
}

/// (rule J3) The lines of a text in order: nodes by their number, processes by theirs, then `(open)`.
fn in_order(text: &str) -> String {
    let mut lines: Vec<&str> = text.split_inclusive('\n').collect();
    lines.sort_by_key(|line| {
        let mut words = line.trim_start_matches('(').split([' ', ')']);
        let kind = match words.next() {
            Some("node") => 0,
            Some("process") => 1,
            _ => 2,
        };
        let number = words.next().and_then(|word| word.parse::<u32>().ok());
        (kind, number)
    });
    lines.concat()
}

/// (rules J2, J3, J4) What is joined opens; a text with itself, or with `(open)` alone, is its forms in order.
#[test]
fn joined_texts_open() {
    let mut rng = Rng::new(124);
    let mut moved = 0;
    for input in good(125, 2_000) {
        let text = agrees(&input);
        opens(&text);
        let text = shown(&text);
        let mut forms: Vec<&str> = text.split_inclusive('\n').collect();
        assert_eq!(forms.pop(), Some("(open)\n"));
        rng.shuffle(&mut forms);
        let other = forms.concat() + "(open)\n";
        assert_eq!(in_order(&other), text);
        for input in [
            format!("{other}{other}"),
            format!("{other}{text}"),
            format!("{text}{other}"),
            format!("{other}(open)\n"),
            format!("(open)\n{other}"),
        ] {
            assert_eq!(shown(&written(input.as_bytes(), JOINED_BYTES)), text);
        }
        moved += usize::from(other != text);
    }
    assert!(moved >= 1_500, "{moved} were in another order");
}

#[test]
fn largest_texts() {
    let mut rng = Rng::new(126);
    for share in SHARES {
        let text = agrees(&largest(&mut rng, share).print());
        match share {
            Share::Different => assert_eq!(text, b"(no 6)\n"),
            _ => {
                assert_eq!(text.len(), LONGEST);
                opens(&text);
            }
        }
    }
}

/// With fewer bytes than all that may be written takes, nothing is, also where this text or this refusal had room.
#[test]
fn too_little_room() {
    let mut rng = Rng::new(127);
    let longest = largest(&mut rng, Share::Halves).print();
    let inputs: [&[u8]; 4] = [b"(open)\n(open)\n", b"", b"(node 33)\n", &longest];
    for texts in inputs {
        let rooms = [0, 1, 7, 8, 255, 256, LONGEST, LONGEST + 1, JOINED_BYTES - 1];
        for room in rooms {
            assert!(written(texts, room).is_empty(), "{room} bytes");
        }
        assert!(!agrees(texts).is_empty());
    }
    assert_eq!(entry::joined(b"(open)\n(open)\n"), b"(open)\n");
}

/// Texts that are cut off anywhere, and what follows them.
#[test]
fn cut_off_and_followed() {
    let mut cuts = 0;
    for input in good(128, 24) {
        let text = agrees(&input);
        for cut in (0..input.len()).step_by(1 + input.len() / 200) {
            assert!(agrees(&input[..cut]).starts_with(b"(no 2 "));
            cuts += 1;
        }
        for after in [&b"x"[..], b"\n", b"(open)\n", b"(node 0)\n", b"\0\xff"] {
            assert_eq!(agrees(&[&input, after].concat()), text);
        }
    }
    assert!(cuts >= 2_000, "{cuts} cuts");
}

/// Any bytes after no `(open)`, one or two.
#[test]
fn any_bytes() {
    let mut rng = Rng::new(129);
    let alphabet = b"(( )) \n\n0123456789 node process open op dir";
    let mut refused = 0;
    for round in 0..20_000 {
        let byte = |rng: &mut Rng| match round % 2 {
            0 => rng.word() as u8,
            _ => rng.pick(alphabet).unwrap_or(0),
        };
        let mut bytes = b"(open)\n".repeat(round % 3);
        let length = rng.below(600);
        bytes.extend((0..length).map(|_| byte(&mut rng)));
        let found = agrees(&bytes);
        match round % 3 {
            2 => assert_eq!(found, b"(open)\n"),
            _ => refused += usize::from(found.starts_with(b"(no 2 ")),
        }
    }
    assert!(refused >= 13_000, "{refused} refused");
}
