//! A call line: the call, or 2 to 6.

use super::calls::{Call, Item, Pair, Records};
use super::reader::Reader;
use super::view::listed;
use crate::layout::{ITEMS, LAST_NUMBER, PAIRS};

/// More items or pairs than these have no room on a line.
const MOST_GROUPS: usize = 48;

/// Row and rights of an item, or row and request of a pair.
type Group = (u32, u32);

/// What a line says, whatever its numbers.
struct Line {
    call: fn(u32, u32) -> Call,
    /// 0 for comesall, which has none.
    first: u32,
    /// 0 for chain and comesall, which have none.
    second: u32,
    kind: Kind,
    /// The last number of answer; 0 for any other call.
    last: u32,
    groups: [Group; MOST_GROUPS],
    count: usize,
}

#[derive(PartialEq)]
enum Kind {
    Go,
    Ask,
    Answer,
    Comes,
    Chain,
    ComesAll,
    Other,
}

/// The call of a listed process, or the lowest of 2 to 6.
pub fn read_call(line: &[u8], p: &Records) -> Result<Call, u32> {
    let line = read_line(line).ok_or(2u32)?;
    if !line.in_range() {
        return Err(3);
    }
    if line.names_twice() {
        return Err(4);
    }
    if line.has_caller() && !listed(p, line.first) {
        return Err(5);
    }
    if line.count > line.most() {
        return Err(6);
    }
    Ok(match line.kind {
        Kind::Ask => {
            let item = |k: usize| {
                let (row, rights) = line.groups[k];
                Item { row, rights }
            };
            Call::Ask(line.first, line.second, std::array::from_fn(item))
        }
        Kind::ComesAll => {
            let pair = |k: usize| {
                let (row, request) = line.groups[k];
                Pair { row, request }
            };
            Call::ComesAll(std::array::from_fn(pair))
        }
        Kind::Answer => Call::Answer(line.first, line.second, line.last == 1),
        _ => (line.call)(line.first, line.second),
    })
}

fn read_line(line: &[u8]) -> Option<Line> {
    let mut reader = Reader::of(line)?;
    let (kind, call, first): (Kind, fn(u32, u32) -> Call, u32) = match reader.word() {
        b"" => {
            let caller = reader.number()?;
            reader.byte(b' ')?;
            let (kind, call) = call_of(reader.word())?;
            (kind, call, caller)
        }
        b"comes" => (Kind::Comes, Call::Comes, reader.next_number()?),
        b"chain" => (Kind::Chain, |e, _| Call::Chain(e), reader.next_number()?),
        b"comesall" => (Kind::ComesAll, Call::Comes, 0),
        _ => return None,
    };
    let second = match kind {
        Kind::Chain | Kind::ComesAll => 0,
        _ => reader.next_number()?,
    };
    let last = match kind {
        Kind::Answer => reader.next_number()?,
        _ => 0,
    };
    let (groups, count) = match kind {
        Kind::Ask | Kind::ComesAll => read_groups(&mut reader)?,
        _ => ([(0, 0); MOST_GROUPS], 0),
    };
    let pairs_missing = kind == Kind::ComesAll && count == 0;
    (reader.is_empty() && !pairs_missing).then_some(Line {
        call,
        first,
        second,
        kind,
        last,
        groups,
        count,
    })
}

fn call_of(word: &[u8]) -> Option<(Kind, fn(u32, u32) -> Call)> {
    Some(match word {
        b"go" => (Kind::Go, Call::Go),
        b"hold" => (Kind::Other, Call::Hold),
        b"register" => (Kind::Other, Call::Register),
        b"drop" => (Kind::Other, Call::Drop),
        b"port" => (Kind::Other, Call::Port),
        b"close" => (Kind::Other, Call::Close),
        b"ask" => (Kind::Ask, Call::Close),
        b"fetch" => (Kind::Other, Call::Fetch),
        b"answer" => (Kind::Answer, |p, v| Call::Answer(p, v, false)),
        b"revoke" => (Kind::Other, Call::Revoke),
        _ => return None,
    })
}

fn read_groups(reader: &mut Reader) -> Option<([Group; MOST_GROUPS], usize)> {
    let mut groups = [(0, 0); MOST_GROUPS];
    let mut count = 0;
    while !reader.is_empty() {
        reader.byte(b' ')?;
        reader.byte(b'(')?;
        let row = reader.number()?;
        let second = reader.next_number()?;
        reader.byte(b')')?;
        groups[count] = (row, second);
        count += 1;
    }
    Some((groups, count))
}

impl Line {
    fn has_caller(&self) -> bool {
        !matches!(self.kind, Kind::Comes | Kind::Chain | Kind::ComesAll)
    }

    /// So many items of an ask, or pairs of a comesall.
    fn most(&self) -> usize {
        match self.kind {
            Kind::ComesAll => PAIRS,
            _ => ITEMS,
        }
    }

    fn in_range(&self) -> bool {
        let number = |n: u32| (1..=LAST_NUMBER).contains(&n);
        let mut groups = self.groups[..self.count].iter();
        if self.kind == Kind::ComesAll {
            return groups.all(|(row, request)| number(*row) && number(*request));
        }
        let first = match self.has_caller() {
            true => (1..=64).contains(&self.first),
            false => number(self.first),
        };
        let zero = matches!(self.kind, Kind::Go | Kind::Chain) && self.second == 0;
        let numbers = first && (number(self.second) || zero) && self.last <= 1;
        numbers && groups.all(|(row, rights)| number(*row) && *rights <= 7)
    }

    /// An item of an ask; a pair may be named again.
    fn names_twice(&self) -> bool {
        let items = &self.groups[..self.count];
        let mut rest = items.iter().enumerate();
        self.kind == Kind::Ask
            && rest.any(|(at, item)| items[..at].iter().any(|other| other.0 == item.0))
    }
}
