//! Why a call line is refused: the lowest refusal that applies, its rule, and what stands in the way. It is read from
//! the state by this program alone; the kernel's answer is not asked.

use crate::call::{read_call, Call, Item, Pair, Verb};
use crate::form::{Number, Span};
use crate::session::Gone;
use crate::{grounds_ask, grounds_one};
use tablet::layout::{ITEMS, LAST_NUMBER, MOST_PAIRS};
use tablet::State;

/// The ground of a refusal.
#[derive(Clone, PartialEq, Eq, Debug)]
pub struct Ground {
    /// The refusal, 2 to 18.
    pub number: u32,
    /// The rule of docs/MANUAL.md.
    pub rule: &'static str,
    /// The row, request or process that is the ground; 0 where there is none.
    pub subject: u32,
    /// The bytes of the line that are wrong, for the refusals 2 to 6.
    pub span: Option<Span>,
    /// What stands in the way, in words.
    pub text: String,
}

const LAST_PROCESS: u32 = 64;
const ALL_RIGHTS: u32 = 7;

impl Ground {
    /// `rule ask-7a: no row 9 stands: it has gone, by call 6`
    pub fn told(&self, gone: &Gone) -> String {
        let by = gone.get(&self.subject).filter(|_| self.number == 7);
        let by = by.map_or(String::new(), |call| format!(", by call {call}"));
        format!("rule {}: {}{by}", self.rule, self.text)
    }
}

/// A ground of the state, 7 to 18.
pub fn of_state(number: u32, rule: &'static str, subject: u32, text: String) -> Option<Ground> {
    let span = None;
    Some(Ground {
        number,
        rule,
        subject,
        span,
        text,
    })
}

fn of_line(number: u32, rule: &'static str, at: Number, text: String) -> Option<Ground> {
    let ground = of_state(number, rule, at.value, text)?;
    let span = Some(at.span);
    Some(Ground { span, ..ground })
}

/// (rules F8, F10) The lowest ground of a line on a state, none if the call is accepted.
pub fn ground(state: &State, line: &[u8]) -> Option<Ground> {
    let call = match read_call(line) {
        Ok(call) => call,
        Err(bad) => {
            let (number, rule, subject, text) = (2, bad.rule, 0, bad.why);
            let span = Some(bad.span);
            return Some(Ground {
                number,
                rule,
                subject,
                span,
                text,
            });
        }
    };
    out_of_range(&call)
        .or_else(|| named_twice(&call))
        .or_else(|| not_listed(state, &call))
        .or_else(|| too_many(&call))
        .or_else(|| in_state(state, &call))
}

/// (rule F4) A number out of its range.
fn out_of_range(call: &Call) -> Option<Ground> {
    let caller = |p| range(p, "the caller", 1, LAST_PROCESS);
    let number = |n: Number, what: &str| range(n, what, 1, LAST_NUMBER);
    call.caller().and_then(caller).or_else(|| match call {
        Call::One {
            verb, number: n, ..
        } => match verb {
            Verb::Go => range(*n, "a row (or 0)", 0, LAST_NUMBER),
            Verb::Revoke => number(*n, "a request"),
            _ => number(*n, "a row"),
        },
        Call::Ask { client, items, .. } => {
            let item = |i: &Item| {
                let row = number(i.row, "an item's row");
                row.or_else(|| range(i.rights, "an item's rights", 0, ALL_RIGHTS))
            };
            number(*client, "a client end").or_else(|| items.iter().find_map(item))
        }
        Call::Answer { end, last, .. } => {
            let last = || range(*last, "the last number of answer", 0, 1);
            number(*end, "a row").or_else(last)
        }
        Call::Comes { row, request } => {
            number(*row, "a row").or_else(|| number(*request, "a request"))
        }
        Call::Chain { row } => number(*row, "a row"),
        Call::ComesAll { pairs } => {
            let pair = |(pair, at): (&Pair, u32)| {
                let row = number(pair.row, &format!("the row of pair {at}"));
                row.or_else(|| number(pair.request, &format!("the request of pair {at}")))
            };
            pairs.iter().zip(1..).find_map(pair)
        }
    })
}

fn range(number: Number, what: &str, least: u32, greatest: u32) -> Option<Ground> {
    if (least..=greatest).contains(&number.value) {
        return None;
    }
    of_line(
        3,
        "F4",
        number,
        format!("the range of {what} is {least} to {greatest}"),
    )
}

/// (rule F5) One row twice among the items.
fn named_twice(call: &Call) -> Option<Ground> {
    let Call::Ask { items, .. } = call else {
        return None;
    };
    let twice = items.iter().enumerate().find(|(at, item)| {
        let before = items.iter().take(*at);
        before
            .into_iter()
            .any(|other| other.row.value == item.row.value)
    });
    let (_, item) = twice?;
    of_line(
        4,
        "F5",
        item.row,
        format!("row {} is an item already", item.row.value),
    )
}

/// (rule F6) The caller is not listed.
fn not_listed(state: &State, call: &Call) -> Option<Ground> {
    let caller = call.caller().filter(|p| state.process(p.value).is_none())?;
    let text = format!("process {} has no form in the opening text", caller.value);
    of_line(5, "F6", caller, text)
}

/// (rule F7) More than four items, or more than 16 pairs. The number is the first of what is too much.
fn too_many(call: &Call) -> Option<Ground> {
    let (first, count, what, most) = match call {
        Call::Ask { items, .. } => (items.get(ITEMS)?.row, items.len(), "items", ITEMS),
        Call::ComesAll { pairs } => (pairs.get(MOST_PAIRS)?.row, pairs.len(), "pairs", MOST_PAIRS),
        _ => return None,
    };
    let text = format!("{count} {what}, at most {most} are allowed");
    of_line(6, "F7", first, text)
}

/// The refusals 7 to 18, chapter 4 of the manual.
fn in_state(state: &State, call: &Call) -> Option<Ground> {
    match call {
        Call::One {
            caller,
            verb,
            number,
        } => {
            let (p, n) = (caller.value, number.value);
            match verb {
                Verb::Go => grounds_one::go(state, p, n),
                Verb::Hold => grounds_one::hold(state, p, n),
                Verb::Register => grounds_one::register(state, p, n),
                Verb::Drop => grounds_one::drop_row(state, p, n),
                Verb::Port => grounds_one::port(state, p, n),
                Verb::Close => grounds_one::close(state, p, n),
                Verb::Fetch => grounds_ask::fetch(state, p, n),
                Verb::Revoke => grounds_ask::revoke(state, p, n),
            }
        }
        Call::Ask {
            caller,
            client,
            items,
        } => {
            let items: Vec<(u32, u32)> = items
                .iter()
                .map(|i| (i.row.value, i.rights.value))
                .collect();
            grounds_ask::ask(state, caller.value, client.value, &items)
        }
        Call::Answer { caller, end, last } => {
            grounds_ask::answer(state, caller.value, end.value, last.value == 1)
        }
        Call::Comes { row, request } => grounds_ask::comes(state, row.value, request.value),
        Call::Chain { row } => grounds_one::chain(state, row.value),
        // a pair of which comes is refused has no value
        Call::ComesAll { .. } => None,
    }
}
