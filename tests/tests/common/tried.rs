//! Calls to try on tables: every word with every number, answer with 0 and with 1, asks with many
//! lists.

use model::call::{Call, Item, Pair, Word, WORDS};
use model::limits::{ALL_RIGHTS, ITEMS, LAST_NUMBER, LINE_BYTES, PAIRS, PROCESSES};
use model::random::pairs::comesall;
use model::random::Rng;
use model::tables::{Kind, Place, Row};
use model::Tables;

/// The most numbers that are tried with every word.
const NUMBERS: usize = 60;

/// Every word with the numbers of rows and requests and some others, by the
/// process that the call fits or by another; and answers, asks, comes, chains and comesalls.
pub fn calls(rng: &mut Rng, tables: &Tables) -> Vec<Call> {
    let mut rows: Vec<&Row> = tables.rows.iter().collect();
    rng.shuffle(&mut rows);
    rows.sort_by_cached_key(|r| holder(r).is_none() && rng.percent(70));
    let mut numbers: Vec<u32> = rows.iter().take(NUMBERS).map(|r| r.number).collect();
    let mut requests: Vec<u32> = tables.requests.iter().map(|q| q.number).collect();
    rng.shuffle(&mut requests);
    requests.truncate(NUMBERS / 4);
    numbers.extend(&requests);
    numbers.extend([tables.next.min(LAST_NUMBER), LAST_NUMBER]);
    let mut calls = Vec::new();
    for number in &numbers {
        for (_, word) in WORDS {
            let fitting = fitting(rng, tables, word, *number);
            calls.push(Call::One {
                caller: caller(rng, tables, fitting),
                word,
                number: *number,
            });
        }
        for last in [1, 0] {
            let fitting = tables.row(*number).and_then(holder);
            calls.push(Call::Answer {
                caller: caller(rng, tables, fitting),
                end: *number,
                last,
            });
        }
        let request = rng.pick(&requests).unwrap_or(1);
        calls.push(Call::Comes {
            row: *number,
            request,
        });
        calls.push(Call::Chain { row: *number });
        calls.push(with_pair(
            rng,
            tables,
            Pair {
                row: *number,
                request,
            },
        ));
        calls.push(ask(rng, tables, *number));
    }
    for process in listed(tables) {
        let (word, number) = (Word::Go, 0);
        calls.push(Call::One {
            caller: process,
            word,
            number,
        });
    }
    calls
}

fn listed(tables: &Tables) -> Vec<u32> {
    (1..=PROCESSES).filter(|p| tables.listed(*p)).collect()
}

fn holder(row: &Row) -> Option<u32> {
    match row.place {
        Place::CList(process) => Some(process),
        _ => None,
    }
}

/// Most often the process that fits, if there is one.
fn caller(rng: &mut Rng, tables: &Tables, fitting: Option<u32>) -> u32 {
    let all = listed(tables);
    let any = rng.pick(&all).expect("a process");
    if rng.percent(15) {
        return any;
    }
    fitting.unwrap_or(any)
}

/// A process that may make the call of that word.
fn fitting(rng: &mut Rng, tables: &Tables, word: Word, number: u32) -> Option<u32> {
    let row = tables.row(number);
    match word {
        Word::Revoke => tables.request(number).map(|q| q.asker),
        Word::Hold => row.and_then(|r| in_node_of(rng, tables, r)),
        _ => row.and_then(holder),
    }
}

/// A process whose active node the row is in.
fn in_node_of(rng: &mut Rng, tables: &Tables, row: &Row) -> Option<u32> {
    let active = |p: &u32| tables.process(*p).map(|record| Place::Node(record.active));
    let there = listed(tables)
        .into_iter()
        .filter(|p| active(p) == Some(row.place));
    rng.pick(&there.collect::<Vec<_>>())
}

/// A comesall with that pair among others, as many as there is room for.
fn with_pair(rng: &mut Rng, tables: &Tables, pair: Pair) -> Call {
    let mut pairs = comesall(rng, tables, false).pairs().to_vec();
    pairs.push(pair);
    while pairs.len() > PAIRS || print(&pairs).len() > LINE_BYTES + 1 {
        pairs.remove(0);
    }
    let turn = rng.below(pairs.len());
    pairs.rotate_left(turn);
    Call::ComesAll { pairs }
}

fn print(pairs: &[Pair]) -> Vec<u8> {
    let pairs = pairs.to_vec();
    Call::ComesAll { pairs }.print()
}

/// An ask over that row, whatever it is, or over a client end of its holder.
fn ask(rng: &mut Rng, tables: &Tables, number: u32) -> Call {
    let any = rng.pick(&listed(tables)).expect("a process");
    let caller = tables.row(number).and_then(holder).unwrap_or(any);
    let own: Vec<&Row> = tables
        .rows
        .iter()
        .filter(|r| r.in_c_list_of(caller))
        .collect();
    let clients = own.iter().filter(|r| r.kind == Kind::Client);
    let clients: Vec<u32> = clients.map(|r| r.number).collect();
    let client = match rng.percent(80) {
        true => rng.pick(&clients).unwrap_or(number),
        false => number,
    };
    let items = items(rng, own, number, client);
    Call::Ask {
        caller,
        client,
        items,
    }
}

/// Some rows of the caller, now and then any number; most with rights within theirs.
fn items(rng: &mut Rng, mut own: Vec<&Row>, number: u32, client: u32) -> Vec<Item> {
    rng.shuffle(&mut own);
    if rng.percent(70) {
        own.retain(|r| r.object != client || !r.is_end());
    }
    let count = rng.below(ITEMS + 1);
    let rights = |rng: &mut Rng, row: &Row| match rng.below(12) {
        0 => rng.between(0, ALL_RIGHTS),
        _ => row.rights & rng.pick(&[ALL_RIGHTS, 3, 0]).unwrap_or(0),
    };
    let mut items: Vec<Item> = Vec::new();
    for row in own.into_iter().take(count) {
        let rights = rights(rng, row);
        items.push(Item {
            row: row.number,
            rights,
        });
    }
    let odd = items.iter().all(|item| item.row != number) && items.len() < ITEMS;
    if odd && rng.percent(5) {
        items.push(Item {
            row: number,
            rights: 0,
        });
    }
    items
}
