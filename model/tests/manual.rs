//! The sessions and the words of docs/MANUAL.md are what the model answers and leaves.

use model::manual;
use model::run_session;
use model::session::Session;
use model::words::encode;

/// Not fewer sessions and answers than the manual had when this was written, so that
/// a fence that is not read does not pass unseen.
const SESSIONS: usize = 52;
const ANSWERS: usize = 625;

#[test]
fn sessions_are_answered_as_told() {
    let sessions = manual::sessions(&manual::read().unwrap());
    for told in &sessions {
        let printed = String::from_utf8(run_session(&told.input)).unwrap();
        let output = String::from_utf8(told.output()).unwrap();
        assert_eq!(printed, output, "docs/MANUAL.md:{}", told.line);
    }
    assert!(sessions.len() >= SESSIONS, "{} sessions", sessions.len());
    let answers: usize = sessions.iter().map(|s| s.answers.len()).sum();
    assert!(answers >= ANSWERS, "{answers} answers");
}

/// (rules W1, W2, W3, W4, W5, W7) The words that the manual lists, each in its place,
/// and 0 in all others.
#[test]
fn words_are_as_told() {
    let tables = manual::words(&manual::read().unwrap());
    assert!(!tables.is_empty());
    for told in tables {
        let mut words = vec![0; 11_265];
        let mut records = vec![0; 192];
        for (part, rows) in &told.parts {
            for row in rows {
                let (first, fields) = (row[0] as usize, row[1..].iter().enumerate());
                match (part.as_str(), row.len()) {
                    ("row", 11) => fields.for_each(|(k, w)| words[1_024 * k + first] = *w),
                    ("request", 9) => {
                        fields.for_each(|(k, w)| words[10_240 + 128 * k + first] = *w)
                    }
                    ("process", 4) => fields.for_each(|(k, w)| records[3 * (first - 1) + k] = *w),
                    ("next", 1) => words[11_264] = row[0],
                    _ => panic!("docs/MANUAL.md:{}: {part} {row:?}", told.line),
                }
            }
        }
        let mut session = Session::begin(&told.after);
        while session.step().is_some() {}
        assert_eq!(
            encode(&session.tables),
            Some((words, records)),
            "docs/MANUAL.md:{}",
            told.line
        );
    }
}
