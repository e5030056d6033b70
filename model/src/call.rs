//! A call line: its words, the call it names and its printed form.

use crate::form::{read_line, Part};

/// The words that take one number after the caller's.
#[derive(Clone, Copy, PartialEq, Eq, Debug, PartialOrd, Ord)]
pub enum Word {
    Go,
    Hold,
    Register,
    Drop,
    Port,
    Close,
    Fetch,
    Revoke,
}

pub const WORDS: [(&[u8], Word); 8] = [
    (b"go", Word::Go),
    (b"hold", Word::Hold),
    (b"register", Word::Register),
    (b"drop", Word::Drop),
    (b"port", Word::Port),
    (b"close", Word::Close),
    (b"fetch", Word::Fetch),
    (b"revoke", Word::Revoke),
];

/// (rule F2) An item of an ask: a row and the rights lent.
#[derive(Clone, Copy, PartialEq, Eq, Debug)]
pub struct Item {
    pub row: u32,
    pub rights: u32,
}

/// (rule F2) A pair of a comesall: a row and a request.
#[derive(Clone, Copy, PartialEq, Eq, Debug)]
pub struct Pair {
    pub row: u32,
    pub request: u32,
}

/// A call of good form; its numbers may be out of range.
#[derive(Clone, PartialEq, Eq, Debug)]
pub enum Call {
    One {
        caller: u32,
        word: Word,
        number: u32,
    },
    Ask {
        caller: u32,
        client: u32,
        items: Vec<Item>,
    },
    /// The last number is 1 for a request that is served, 0 for one that is declined.
    Answer {
        caller: u32,
        end: u32,
        last: u32,
    },
    Comes {
        row: u32,
        request: u32,
    },
    Chain {
        row: u32,
    },
    ComesAll {
        pairs: Vec<Pair>,
    },
}

/// (rules F1, F2, F3) The call on a line, none for a bad form: one line, whose
/// line feed is the last byte.
pub fn read_call(line: &[u8]) -> Option<Call> {
    let parts = read_line(line)?;
    match parts.as_slice() {
        [Part::Word(b"comes"), Part::Number(row), Part::Number(request)] => Some(Call::Comes {
            row: *row,
            request: *request,
        }),
        [Part::Word(b"chain"), Part::Number(row)] => Some(Call::Chain { row: *row }),
        [Part::Word(b"comesall"), pairs @ ..] if !pairs.is_empty() => {
            let pairs = pairs.iter().map(read_pair).collect::<Option<_>>()?;
            Some(Call::ComesAll { pairs })
        }
        [Part::Number(caller), Part::Word(b"ask"), Part::Number(client), items @ ..] => {
            let items = items.iter().map(read_item).collect::<Option<_>>()?;
            Some(Call::Ask {
                caller: *caller,
                client: *client,
                items,
            })
        }
        [Part::Number(caller), Part::Word(b"answer"), Part::Number(end), Part::Number(last)] => {
            Some(Call::Answer {
                caller: *caller,
                end: *end,
                last: *last,
            })
        }
        [Part::Number(caller), Part::Word(word), Part::Number(number)] => {
            let (_, word) = WORDS.into_iter().find(|(text, _)| text == word)?;
            Some(Call::One {
                caller: *caller,
                word,
                number: *number,
            })
        }
        _ => None,
    }
}

fn read_item(part: &Part) -> Option<Item> {
    let (row, rights) = two_numbers(part)?;
    Some(Item { row, rights })
}

fn read_pair(part: &Part) -> Option<Pair> {
    let (row, request) = two_numbers(part)?;
    Some(Pair { row, request })
}

/// Two numbers in brackets.
fn two_numbers(part: &Part) -> Option<(u32, u32)> {
    let Part::Form(parts) = part else {
        return None;
    };
    match parts.as_slice() {
        [Part::Number(first), Part::Number(second)] => Some((*first, *second)),
        _ => None,
    }
}

impl Call {
    /// None for `(comes e q)`, `(chain e)` and `(comesall (e q) ..)`.
    pub fn caller(&self) -> Option<u32> {
        match self {
            Call::One { caller, .. } | Call::Ask { caller, .. } | Call::Answer { caller, .. } => {
                Some(*caller)
            }
            Call::Comes { .. } | Call::Chain { .. } | Call::ComesAll { .. } => None,
        }
    }

    /// The word that names the call.
    pub fn word(&self) -> String {
        match self {
            Call::One { word, .. } => word.text(),
            Call::Ask { .. } => "ask".to_string(),
            Call::Answer { .. } => "answer".to_string(),
            Call::Comes { .. } => "comes".to_string(),
            Call::Chain { .. } => "chain".to_string(),
            Call::ComesAll { .. } => "comesall".to_string(),
        }
    }

    /// The items of an ask; no other call has any.
    pub fn items(&self) -> &[Item] {
        match self {
            Call::Ask { items, .. } => items,
            _ => &[],
        }
    }

    /// The pairs of a comesall; no other call has any.
    pub fn pairs(&self) -> &[Pair] {
        match self {
            Call::ComesAll { pairs } => pairs,
            _ => &[],
        }
    }

    /// The call with other numbers of rows and requests; the last number of an answer is none.
    pub fn renumbered(&self, number: impl Fn(u32) -> u32) -> Call {
        let mut call = self.clone();
        match &mut call {
            Call::One { number: n, .. } => *n = number(*n),
            Call::Ask { client, items, .. } => {
                *client = number(*client);
                items.iter_mut().for_each(|i| i.row = number(i.row));
            }
            Call::Answer { end, .. } => *end = number(*end),
            Call::Comes { row, request } => {
                *row = number(*row);
                *request = number(*request);
            }
            Call::Chain { row } => *row = number(*row),
            Call::ComesAll { pairs } => pairs.iter_mut().for_each(|p| {
                p.row = number(p.row);
                p.request = number(p.request);
            }),
        }
        call
    }

    /// The line of the call, with its line feed.
    pub fn print(&self) -> Vec<u8> {
        let text = match self {
            Call::One {
                caller,
                word,
                number,
            } => {
                format!("({caller} {} {number})\n", word.text())
            }
            Call::Ask {
                caller,
                client,
                items,
            } => {
                let items = items.iter().map(|i| format!(" ({} {})", i.row, i.rights));
                format!("({caller} ask {client}{})\n", items.collect::<String>())
            }
            Call::Answer { caller, end, last } => format!("({caller} answer {end} {last})\n"),
            Call::Comes { row, request } => format!("(comes {row} {request})\n"),
            Call::Chain { row } => format!("(chain {row})\n"),
            Call::ComesAll { pairs } => {
                let pairs = pairs.iter().map(|p| format!(" ({} {})", p.row, p.request));
                format!("(comesall{})\n", pairs.collect::<String>())
            }
        };
        text.into_bytes()
    }
}

impl Word {
    pub fn text(self) -> String {
        let found = WORDS.into_iter().find(|(_, word)| *word == self);
        let bytes = found.map_or(&b""[..], |(text, _)| text);
        String::from_utf8_lossy(bytes).into_owned()
    }
}
