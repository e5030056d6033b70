//! A call line: the call that it names, with the bytes of each number.

use crate::form::{bad, read_line, BadForm, Number, Part, Span};

/// (rule F2) The words that take a caller and one number.
#[derive(Clone, Copy, PartialEq, Eq, Debug)]
pub enum Verb {
    Go,
    Hold,
    Register,
    Drop,
    Port,
    Close,
    Fetch,
    Revoke,
}

const VERBS: [(&str, Verb); 8] = [
    ("go", Verb::Go),
    ("hold", Verb::Hold),
    ("register", Verb::Register),
    ("drop", Verb::Drop),
    ("port", Verb::Port),
    ("close", Verb::Close),
    ("fetch", Verb::Fetch),
    ("revoke", Verb::Revoke),
];

/// An item of an ask: a row and the rights lent.
#[derive(Clone, Copy, PartialEq, Eq, Debug)]
pub struct Item {
    pub row: Number,
    pub rights: Number,
}

/// A pair of a comesall: a row and a request.
#[derive(Clone, Copy, PartialEq, Eq, Debug)]
pub struct Pair {
    pub row: Number,
    pub request: Number,
}

/// A call of good form; its numbers may be out of range.
#[derive(Clone, PartialEq, Eq, Debug)]
pub enum Call {
    One {
        caller: Number,
        verb: Verb,
        number: Number,
    },
    Ask {
        caller: Number,
        client: Number,
        items: Vec<Item>,
    },
    Answer {
        caller: Number,
        end: Number,
        /// 1 if the request was served, 0 if it is declined.
        last: Number,
    },
    Comes {
        row: Number,
        request: Number,
    },
    Chain {
        row: Number,
    },
    ComesAll {
        pairs: Vec<Pair>,
    },
}

/// (rules F1, F2, F3) The call on a line, or where and why it is none.
pub fn read_call(line: &[u8]) -> Result<Call, BadForm> {
    let parts = read_line(line)?;
    match parts.as_slice() {
        [Part::Word(word, span), rest @ ..] => question(word, *span, rest, line),
        [Part::Number(caller), Part::Word(word, span), rest @ ..] => match word.as_str() {
            "ask" => ask(*caller, rest, line),
            "answer" => answer(*caller, rest, line),
            _ => one(*caller, word, *span, rest, line),
        },
        parts => Err(no_front(parts, line)),
    }
}

/// A call without a caller.
fn question(word: &str, span: Span, parts: &[Part], line: &[u8]) -> Result<Call, BadForm> {
    match word {
        "comes" => {
            let why = "comes wants a row and a request: (comes e q)";
            let [row, request] = numbers(parts, line, why)?;
            Ok(Call::Comes { row, request })
        }
        "chain" => {
            let [row] = numbers(parts, line, "chain wants a row: (chain e)")?;
            Ok(Call::Chain { row })
        }
        "comesall" if parts.is_empty() => {
            let why = "comesall wants one pair or more: (comesall (e q) ..)";
            Err(misfit(None, line, why))
        }
        "comesall" => {
            let why = "a pair is a row and a request: (e q)";
            let pairs = parts.iter().map(|part| two_numbers(part, line, why));
            let pairs = pairs.map(|pair| pair.map(|[row, request]| Pair { row, request }));
            let pairs = pairs.collect::<Result<_, _>>()?;
            Ok(Call::ComesAll { pairs })
        }
        _ => {
            let why =
                "a call begins with the caller's number, only comes, chain and comesall do not";
            Err(bad(span.from, span.to, "F3", why))
        }
    }
}

/// A call of one number.
fn one(
    caller: Number,
    word: &str,
    span: Span,
    parts: &[Part],
    line: &[u8],
) -> Result<Call, BadForm> {
    let verb = VERBS.into_iter().find(|(text, _)| *text == word);
    let (_, verb) = verb.ok_or_else(|| no_call(word, span))?;
    let why = format!("{word} wants one number: (p {word} n)");
    let [number] = numbers(parts, line, &why)?;
    Ok(Call::One {
        caller,
        verb,
        number,
    })
}

fn answer(caller: Number, parts: &[Part], line: &[u8]) -> Result<Call, BadForm> {
    let why = "answer wants a server end and 0 or 1: (p answer v x)";
    let [end, last] = numbers(parts, line, why)?;
    Ok(Call::Answer { caller, end, last })
}

/// (rule F3) Parts that do not begin with a caller and a word.
fn no_front(parts: &[Part], line: &[u8]) -> BadForm {
    match parts {
        [Part::Form(_, span), ..] | [_, Part::Form(_, span), ..] => bad(
            span.from,
            span.to,
            "F3",
            "here should be the caller's number and a word",
        ),
        _ => bad(
            0,
            line.len() - 1,
            "F3",
            "the word of the call is missing: (p WORD n)",
        ),
    }
}

fn no_call(word: &str, span: Span) -> BadForm {
    let why = match word {
        "comes" => "comes has no caller: (comes e q)".to_string(),
        "chain" => "chain has no caller: (chain e)".to_string(),
        "comesall" => "comesall has no caller: (comesall (e q) ..)".to_string(),
        _ => format!("'{word}' is no call"),
    };
    bad(span.from, span.to, "F3", why)
}

fn ask(caller: Number, parts: &[Part], line: &[u8]) -> Result<Call, BadForm> {
    let Some((Part::Number(client), items)) = parts.split_first() else {
        let why = "ask wants a client end and items: (p ask c (e r) ..)";
        return Err(misfit(parts.first(), line, why));
    };
    let why = "an item is a row and the rights lent: (e r)";
    let items = items.iter().map(|part| two_numbers(part, line, why));
    let items = items.map(|item| item.map(|[row, rights]| Item { row, rights }));
    Ok(Call::Ask {
        caller,
        client: *client,
        items: items.collect::<Result<_, _>>()?,
    })
}

/// Two numbers in brackets.
fn two_numbers(part: &Part, line: &[u8], why: &str) -> Result<[Number; 2], BadForm> {
    let Part::Form(parts, _) = part else {
        return Err(misfit(Some(part), line, why));
    };
    match parts.as_slice() {
        [Part::Number(first), Part::Number(second)] => Ok([*first, *second]),
        _ => Err(misfit(Some(part), line, why)),
    }
}

/// So many numbers and no more.
fn numbers<const N: usize>(parts: &[Part], line: &[u8], why: &str) -> Result<[Number; N], BadForm> {
    let fitting = parts
        .iter()
        .take(N)
        .take_while(|part| matches!(part, Part::Number(_)));
    let fitting: Vec<Number> = fitting
        .filter_map(|p| {
            if let Part::Number(n) = p {
                Some(*n)
            } else {
                None
            }
        })
        .collect();
    let odd = parts.get(fitting.len());
    match (fitting.try_into(), odd) {
        (Ok(numbers), None) => Ok(numbers),
        _ => Err(misfit(odd, line, why)),
    }
}

/// (rule T5) A part that does not belong here, or the place where one is missing.
pub fn misfit(part: Option<&Part>, line: &[u8], why: &str) -> BadForm {
    let last = line.len().saturating_sub(2);
    let span = part.map_or(
        Span {
            from: last,
            to: last + 1,
        },
        Part::span,
    );
    bad(span.from, span.to, "T5", why)
}

impl Call {
    /// None for `(comes e q)`, `(chain e)` and `(comesall (e q) ..)`.
    pub fn caller(&self) -> Option<Number> {
        match self {
            Call::One { caller, .. } | Call::Ask { caller, .. } | Call::Answer { caller, .. } => {
                Some(*caller)
            }
            Call::Comes { .. } | Call::Chain { .. } | Call::ComesAll { .. } => None,
        }
    }
}
