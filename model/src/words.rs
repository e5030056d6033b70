//! The lent tables as words of 32 bits (docs/MANUAL.md, chapter 7), and the two
//! entry points on them.

use crate::answer::Answer;
use crate::limits::{ITEMS, PROCESSES, REQUESTS, ROWS};
use crate::session::{call, open};
use crate::tables::{Kind, Place, Process, Request, Row, Tables};

/// The columns of the rows, 1,024 words each, in this order.
pub const ROW_COLUMNS: usize = 10;
pub const NUMBER: usize = 0;
pub const KIND: usize = 1;
const OBJECT: usize = 2;
const OPERATION: usize = 3;
pub const RIGHTS: usize = 4;
pub const PLACE: usize = 5;
const SOURCE: usize = 6;
const VIA: usize = 7;
pub const DEPTH: usize = 8;
const REQUEST: usize = 9;

/// The words of a row's slot, column by column.
pub type RowWords = [u32; ROW_COLUMNS];

/// The columns of the requests, 128 words each: number, port, asker, fetched
/// and the items.
pub const REQUEST_COLUMNS: usize = 4 + ITEMS;
const REQUEST_START: usize = ROW_COLUMNS * ROWS;

/// (rule W11) The version of this layout.
pub const LAYOUT_VERSION: u32 = 1;

/// The next number is the last word.
const NEXT: usize = REQUEST_START + REQUEST_COLUMNS * REQUESTS;
pub const TABLES_WORDS: usize = NEXT + 1;
pub const PROCESS_WORDS: usize = 3 * PROCESSES as usize;

/// (rule W12) The c-list of process p is 100 + p, the system 200; a node is its number.
const C_LIST: u32 = 100;
const SYSTEM: u32 = 200;

pub const KINDS: [(u32, Kind); 4] = [
    (1, Kind::Operation),
    (2, Kind::Subdirectory),
    (3, Kind::Client),
    (4, Kind::Server),
];

/// The words of tables; none where they do not fit: too many rows, a source
/// that is no row, a place without a code.
pub fn encode(tables: &Tables) -> Option<(Vec<u32>, Vec<u32>)> {
    if tables.rows.len() > ROWS || tables.requests.len() > REQUESTS {
        return None;
    }
    let mut words = vec![0; TABLES_WORDS];
    for (slot, row) in tables.rows.iter().enumerate() {
        let fields = row_words(tables, row)?;
        for (column, field) in fields.into_iter().enumerate() {
            words[column * ROWS + slot] = field;
        }
    }
    for (slot, request) in tables.requests.iter().enumerate() {
        let fields = request_words(request)?;
        for (column, field) in fields.into_iter().enumerate() {
            words[REQUEST_START + column * REQUESTS + slot] = field;
        }
    }
    words[NEXT] = tables.next;
    let records = tables.processes.iter();
    let processes = records.flat_map(|p| [p.prime, p.active, p.through]);
    Some((words, processes.collect()))
}

pub fn place_word(place: Place) -> Option<u32> {
    match place {
        Place::Node(n) if n < C_LIST => Some(n),
        Place::CList(p) if p < SYSTEM - C_LIST => Some(C_LIST + p),
        Place::System => Some(SYSTEM),
        _ => None,
    }
}

/// The words of a row's slot, column by column.
pub fn row_words(tables: &Tables, row: &Row) -> Option<RowWords> {
    let (kind, _) = KINDS.into_iter().find(|(_, kind)| *kind == row.kind)?;
    let mut words = [0; ROW_COLUMNS];
    words[NUMBER] = row.number;
    words[KIND] = kind;
    words[OBJECT] = row.object;
    words[OPERATION] = row.operation;
    words[RIGHTS] = row.rights;
    words[PLACE] = place_word(row.place)?;
    words[SOURCE] = slot_word(tables, row.source)?;
    words[VIA] = slot_word(tables, row.via)?;
    words[DEPTH] = row.depth;
    words[REQUEST] = row.request;
    Some(words)
}

/// (rule W8) The slot of the source row plus 1, 0 for none.
fn slot_word(tables: &Tables, source: u32) -> Option<u32> {
    if source == 0 {
        return Some(0);
    }
    let slot = tables.rows.iter().position(|r| r.number == source)?;
    Some(slot as u32 + 1)
}

/// An item that left the list is 0, so a listed item 0 cannot be written.
pub fn request_words(q: &Request) -> Option<[u32; REQUEST_COLUMNS]> {
    if q.lists(0) {
        return None;
    }
    let [a, b, c, d] = q.items.map(|item| item.unwrap_or(0));
    Some([q.number, q.port, q.asker, q.fetched, a, b, c, d])
}

/// The tables that words stand for; none if a run has another length, an
/// unused slot is not all 0, a code is unknown or a source word is no slot of
/// an older row.
pub fn decode(words: &[u32], processes: &[u32]) -> Option<Tables> {
    if words.len() != TABLES_WORDS || processes.len() != PROCESS_WORDS {
        return None;
    }
    let (row_part, rest) = words.split_at(REQUEST_START);
    let (request_part, next) = rest.split_at(NEXT - REQUEST_START);
    let row_slots = used_slots::<ROW_COLUMNS>(row_part, ROWS)?;
    let request_slots = used_slots::<REQUEST_COLUMNS>(request_part, REQUESTS)?;
    let rows = row_slots.iter().enumerate();
    let rows = rows.map(|(slot, fields)| decode_row(&row_slots, slot, fields));
    let mut tables = Tables {
        rows: rows.collect::<Option<_>>()?,
        requests: request_slots.iter().map(decode_request).collect(),
        next: *next.first()?,
        ..Tables::empty()
    };
    for (record, words) in tables.processes.iter_mut().zip(processes.chunks(3)) {
        *record = Process {
            prime: words[0],
            active: words[1],
            through: words[2],
        };
    }
    Some(tables)
}

/// The slots in use, each with its columns. A slot is in use if its number is
/// not 0; all slots after the first unused one must be all 0.
fn used_slots<const N: usize>(words: &[u32], slots: usize) -> Option<Vec<[u32; N]>> {
    let all: Vec<[u32; N]> = (0..slots).map(|at| slot(words, slots, at)).collect();
    let used = all.iter().take_while(|fields| fields[NUMBER] != 0).count();
    let rest_is_0 = all[used..].iter().all(|fields| *fields == [0; N]);
    rest_is_0.then(|| all[..used].to_vec())
}

/// The columns of a slot.
fn slot<const N: usize>(words: &[u32], slots: usize, at: usize) -> [u32; N] {
    std::array::from_fn(|column| words[column * slots + at])
}

/// (rule W6) The slots of rows before the first whose number is 0, whatever the words hold; none if
/// the run has another length.
pub fn slots_in_use(words: &[u32]) -> Option<Vec<RowWords>> {
    if words.len() != TABLES_WORDS {
        return None;
    }
    let slots = (0..ROWS).map(|at| slot(words, ROWS, at));
    let used = slots.take_while(|row: &RowWords| row[NUMBER] != 0);
    Some(used.collect())
}

fn decode_row(slots: &[RowWords], slot: usize, fields: &RowWords) -> Option<Row> {
    let (_, kind) = KINDS.into_iter().find(|(code, _)| *code == fields[KIND])?;
    let place = match fields[PLACE] {
        SYSTEM => Place::System,
        n if n < C_LIST => Place::Node(n),
        p if p < SYSTEM => Place::CList(p - C_LIST),
        _ => return None,
    };
    let older = &slots[..slot];
    Some(Row {
        number: fields[NUMBER],
        kind,
        object: fields[OBJECT],
        operation: fields[OPERATION],
        rights: fields[RIGHTS],
        place,
        source: source_number(older, fields[SOURCE])?,
        via: source_number(older, fields[VIA])?,
        depth: fields[DEPTH],
        request: fields[REQUEST],
    })
}

/// The number of the row that a source word names, which must be among the
/// older slots.
fn source_number(older: &[RowWords], word: u32) -> Option<u32> {
    match (word as usize).checked_sub(1) {
        None => Some(0),
        Some(slot) => older.get(slot).map(|fields| fields[NUMBER]),
    }
}

fn decode_request(fields: &[u32; REQUEST_COLUMNS]) -> Request {
    let [number, port, asker, fetched, a, b, c, d] = *fields;
    Request {
        number,
        port,
        asker,
        fetched,
        items: [a, b, c, d].map(|item| (item != 0).then_some(item)),
    }
}

/// (rule K8) The opening on lent words. A run of another length answers `(no 1 0)`
/// and clears what was lent.
pub fn open_entry(tables: &mut [u32], processes: &mut [u32], text: &[u8]) -> Vec<u8> {
    let lengths = tables.len() == TABLES_WORDS && processes.len() == PROCESS_WORDS;
    tables.fill(0);
    processes.fill(0);
    if tables.len() == TABLES_WORDS {
        tables[NEXT] = 1;
    }
    if !lengths {
        return Answer::NoAt(1, 0).print();
    }
    let (opened, answer, _) = open(text);
    store(tables, processes, &opened);
    answer.print()
}

/// One call on lent words. Words that stand for no sound tables: `(no 1)`,
/// nothing changed.
pub fn call_entry(tables: &mut [u32], processes: &mut [u32], line: &[u8]) -> Vec<u8> {
    let Some(mut state) = decode(tables, processes) else {
        return Answer::No(1).print();
    };
    let answer = call(&mut state, line);
    if answer.accepted() {
        store(tables, processes, &state);
    }
    answer.print()
}

fn store(tables: &mut [u32], processes: &mut [u32], state: &Tables) {
    if let Some((words, records)) = encode(state) {
        tables.copy_from_slice(&words);
        processes.copy_from_slice(&records);
    }
}
