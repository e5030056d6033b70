//! The clauses of soundness of the requests.

use super::view::{listed, View};
use crate::layout::{CLIENT, ITEMS, PROCESS_WORDS, ROWS, SERVER};

pub fn requests_sound(t: &View, p: &[u32; PROCESS_WORDS]) -> bool {
    (0..t.request_count).all(|q| request_sound(t, p, q)) && ports_sound(t)
}

fn request_sound(t: &View, p: &[u32; PROCESS_WORDS], q: usize) -> bool {
    let number = t.requests[0][q];
    let asker = t.requests[2][q];
    let fetched = t.requests[3][q];
    let items = t.items(q);
    t.find(number).is_none()
        && listed(p, asker)
        && fetched <= 1
        && apart(&items)
        && items
            .iter()
            .all(|item| *item == 0 || may_be_listed(t, number, *item))
}

/// No item twice.
fn apart(items: &[u32; ITEMS]) -> bool {
    let twice = |k: usize| items[k] != 0 && items[k + 1..].contains(&items[k]);
    !(0..ITEMS).any(twice)
}

/// An end older than the request, or a copy that bears its number.
fn may_be_listed(t: &View, number: u32, item: u32) -> bool {
    t.find(item).is_some_and(|slot| {
        let end = matches!(t.rows[1][slot], CLIENT | SERVER);
        (end && item < number) || t.rows[9][slot] == number
    })
}

/// Each request is newer than its port, which stands; a port has one at most.
fn ports_sound(t: &View) -> bool {
    let mut taken = [false; ROWS];
    (0..t.request_count).all(|q| {
        let (number, port) = (t.requests[0][q], t.requests[1][q]);
        t.find(port).is_some_and(|slot| {
            let client = t.rows[1][slot] == CLIENT;
            client && port + 1 < number && !std::mem::replace(&mut taken[slot], true)
        })
    })
}
