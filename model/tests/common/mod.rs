//! A session given as lines with `|` between them, run to its end.

use model::session::Session;
use model::tables::Tables;

/// The tables after these lines, all of which are accepted.
pub fn after(lines: &str) -> Tables {
    let lines = lines.split('|').filter(|line| !line.is_empty());
    let input: String = lines.map(|line| format!("{line}\n")).collect();
    let mut session = Session::begin(input.as_bytes());
    assert!(session.opening.accepted());
    while let Some((line, answer)) = session.step() {
        let line = String::from_utf8_lossy(line);
        assert!(answer.accepted(), "{line}{answer:?}");
    }
    session.tables
}
