//! The holders' page: the rows at the end of a session, a line a row, 64 columns wide.

use crate::limits::{NODES, PROCESSES};
use crate::session::Session;
use crate::tables::{Kind, Place, Row, Tables};
use crate::words::{slots_in_use, RowWords, DEPTH, KIND, KINDS, NUMBER, PLACE, RIGHTS};

/// (rule G2) The columns of a line; its bytes, with the line feed.
pub const WIDTH: usize = 64;
pub const LINE: usize = WIDTH + 1;

/// (rule G3) What a line shows of a row; no kind where the code is none.
struct Shown {
    number: u32,
    kind: Option<Kind>,
    place: Place,
    rights: u32,
    depth: u32,
}

impl Shown {
    fn of_row(row: &Row) -> Shown {
        Shown {
            number: row.number,
            kind: Some(row.kind),
            place: row.place,
            rights: row.rights,
            depth: row.depth,
        }
    }

    fn of_words(words: &RowWords) -> Shown {
        let kind = KINDS.into_iter().find(|(code, _)| *code == words[KIND]);
        Shown {
            number: words[NUMBER],
            kind: kind.map(|(_, kind)| kind),
            place: place_of(words[PLACE]),
            rights: words[RIGHTS],
            depth: words[DEPTH],
        }
    }

    /// (rules G2, G3) Columns 1 to 10, 12 to 17, 19 to 26, 28 to 29 and 31 to 32; the rest spaces.
    fn line(&self) -> String {
        let fields = format!(
            "{} {:<6} {:<8} {} {}",
            right::<10>(self.number),
            self.kind.map_or("", kind_word),
            place_words(self.place),
            right::<2>(self.rights),
            right::<2>(self.depth),
        );
        format!("{fields:<WIDTH$}\n")
    }
}

/// (rule W12) A node is its number, the c-list of process p is 100 + p, the system 200. A code that
/// is no place becomes a node or a process out of range.
fn place_of(code: u32) -> Place {
    match code {
        200 => Place::System,
        101.. => Place::CList(code - 100),
        _ => Place::Node(code),
    }
}

/// (rule G3) A number in so many columns, right-aligned; of more digits the last ones.
fn right<const COLUMNS: usize>(number: u32) -> String {
    let text = format!("{number:>COLUMNS$}");
    text[text.len() - COLUMNS..].to_string()
}

/// (rule G4) The word of a kind.
fn kind_word(kind: Kind) -> &'static str {
    match kind {
        Kind::Operation => "op",
        Kind::Subdirectory => "dir",
        Kind::Client => "client",
        Kind::Server => "server",
    }
}

/// (rule G4) The words of a place; nothing where the node or the process is none.
fn place_words(place: Place) -> String {
    match place {
        Place::Node(n) if (1..=NODES).contains(&n) => format!("node {n}"),
        Place::CList(p) if (1..=PROCESSES).contains(&p) => format!("proc {p}"),
        Place::System => "system".to_string(),
        Place::Node(_) | Place::CList(_) => String::new(),
    }
}

/// (rule G2) The page of tables, in table order.
pub fn page(tables: &Tables) -> Vec<u8> {
    let lines = tables.rows.iter().map(|row| Shown::of_row(row).line());
    lines.collect::<String>().into_bytes()
}

/// The tables at the end of a session; after a refused opening they are empty.
pub fn session_end(input: &[u8]) -> Tables {
    let mut session = Session::begin(input);
    while session.step().is_some() {}
    session.tables
}

/// (rule G1) The program `holders`: the page of the rows at the end of a session.
pub fn session_page(input: &[u8]) -> Vec<u8> {
    page(&session_end(input))
}

/// (rule G5) What `tablet_page` writes of words of any content: whole lines from the row at a
/// slot on, as many as have room. Words of another length have no page.
pub fn lines_from(words: &[u32], from: usize, room: usize) -> Vec<u8> {
    let slots = slots_in_use(words).unwrap_or_default();
    let rows = slots.iter().skip(from).take(room / LINE);
    let lines = rows.map(|words| Shown::of_words(words).line());
    lines.collect::<String>().into_bytes()
}

/// (rule G5) All lines of words of any content.
pub fn words_page(words: &[u32]) -> Vec<u8> {
    lines_from(words, 0, usize::MAX)
}
