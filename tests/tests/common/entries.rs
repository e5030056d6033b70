//! The two entry points, bytes to bytes, compared with the model: the reply,
//! and every word of both runs after.

use super::performed::{about, Asked, Made};
use super::Lent;
use kernel::entry::{self, Point, REPLY_BYTES};
use kernel::plain;
use model::words::{call_entry, open_entry};
use model::Answer;
use std::cell::RefCell;

/// How often calls and openings were refused with each number; at 0 those accepted.
#[derive(Default)]
pub struct Replies {
    pub calls: [u64; 19],
    pub openings: [u64; 7],
}

/// The entry points under test, and what they answered.
pub struct Entry {
    pub open: Point,
    pub call: Point,
    pub seen: RefCell<Replies>,
}

/// The proved entry points, and those in plain Rust.
pub fn entries() -> [Entry; 2] {
    let plainly = Entry::new(plain::entry::open, plain::entry::call);
    [Entry::new(entry::open, entry::call), plainly]
}

/// Every entry point answers the line so, and no word changes.
pub fn answer(entries: &[Entry], lent: &Lent, line: &[u8], expected: &[u8]) {
    for entry in entries {
        let mut after = lent.clone();
        let reply = entry.call(&mut after, line);
        assert_eq!(shown(&reply), shown(expected), "{}", shown(line));
        assert!(after == *lent, "words changed by {}", shown(line));
    }
}

/// Every entry point and the model refuse lines with that number; no word changes.
pub fn refuse(lent: &Lent, refusal: u32, lines: &[&str]) {
    let expected = format!("(no {refusal})\n");
    for line in lines {
        let line = format!("{line}\n");
        answer(&entries(), lent, line.as_bytes(), expected.as_bytes());
        entries()[0].calls_as_model(lent, line.as_bytes());
    }
}

impl Entry {
    pub fn new(open: Point, call: Point) -> Entry {
        let seen = RefCell::default();
        Entry { open, call, seen }
    }

    /// The reply to a call; its bytes past the reply stay.
    pub fn call(&self, lent: &mut Lent, line: &[u8]) -> Vec<u8> {
        let said = replied(self.call, lent, line);
        self.seen.borrow_mut().calls[refusal(&said)] += 1;
        said
    }

    pub fn open(&self, lent: &mut Lent, text: &[u8]) -> Vec<u8> {
        let said = replied(self.open, lent, text);
        self.seen.borrow_mut().openings[refusal(&said)] += 1;
        said
    }

    /// Words of any content and length, and any bytes: as the model answers.
    pub fn calls_as_model(&self, lent: &Lent, line: &[u8]) {
        let (mut ours, mut models) = (lent.clone(), lent.clone());
        let said = self.call(&mut ours, line);
        let expected = call_entry(&mut models.0, &mut models.1, line);
        agree((&said, &ours), (&expected, &models), line);
    }

    /// The words that the opening leaves.
    pub fn opens_as_model(&self, lent: &Lent, text: &[u8]) -> Lent {
        let (mut ours, mut models) = (lent.clone(), lent.clone());
        let said = self.open(&mut ours, text);
        let expected = open_entry(&mut models.0, &mut models.1, text);
        agree((&said, &ours), (&expected, &models), text);
        ours
    }
}

impl Made for Entry {
    fn makes(&self, asked: &Asked, lent: &mut Lent) -> bool {
        let said = self.call(lent, asked.line);
        let expected = asked.answer.print();
        assert!(said == expected, "{}: {}", shown(&said), about(asked));
        true
    }

    fn bad_form(&self, line: &[u8], lent: &mut Lent) {
        let said = self.call(lent, line);
        assert_eq!(
            shown(&said),
            shown(&Answer::No(2).print()),
            "{}",
            shown(line)
        );
    }
}

type Said<'a> = (&'a [u8], &'a Lent);

fn agree(ours: Said, models: Said, bytes: &[u8]) {
    assert_eq!(shown(ours.0), shown(models.0), "{}", shown(bytes));
    assert!(
        ours.1 .0 == models.1 .0,
        "the tables after {}",
        shown(bytes)
    );
    assert!(
        ours.1 .1 == models.1 .1,
        "the records after {}",
        shown(bytes)
    );
}

pub fn shown(bytes: &[u8]) -> String {
    String::from_utf8_lossy(bytes).into_owned()
}

const PAINT: u8 = 0xa5;

/// The reply, on a lent run whose other bytes stay.
fn replied(point: Point, lent: &mut Lent, bytes: &[u8]) -> Vec<u8> {
    let mut reply = [PAINT; REPLY_BYTES];
    let length = point(&mut lent.0, &mut lent.1, bytes, &mut reply);
    assert!(
        (1..=REPLY_BYTES).contains(&length),
        "a reply of {length} bytes"
    );
    let (said, rest) = reply.split_at(length);
    assert!(
        rest.iter().all(|byte| *byte == PAINT),
        "bytes after the reply"
    );
    said.to_vec()
}

/// The number after "(no ", 0 for an accepted answer.
fn refusal(reply: &[u8]) -> usize {
    let Some(rest) = reply.strip_prefix(b"(no ") else {
        assert!(reply.starts_with(b"(ok "), "{}", shown(reply));
        return 0;
    };
    let digits = rest.iter().take_while(|b| b.is_ascii_digit());
    digits.fold(0, |value, digit| 10 * value + usize::from(digit - b'0'))
}
