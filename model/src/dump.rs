//! Tables as text, one item a line, as conformance/README.md writes them.

use crate::limits::ITEMS;
use crate::tables::{Kind, Place, Process, Request, Row, Tables};

const KINDS: [(&str, Kind); 4] = [
    ("op", Kind::Operation),
    ("dir", Kind::Subdirectory),
    ("client", Kind::Client),
    ("server", Kind::Server),
];

impl Tables {
    /// Reads the text; none if a line is not one of the four kinds.
    pub fn parse(text: &str) -> Option<Tables> {
        let mut tables = Tables::empty();
        for line in text.lines() {
            tables.add_line(line)?;
        }
        Some(tables)
    }

    /// Adds what one line says; none if it is not one of the four kinds.
    pub fn add_line(&mut self, line: &str) -> Option<()> {
        add_line(self, line)
    }

    pub fn print(&self) -> String {
        let mut text = format!("next {}\n", self.next);
        let records = self.processes.iter().zip(1..);
        for (record, p) in records.filter(|(record, _)| **record != Process::default()) {
            let Process {
                prime,
                active,
                through,
            } = record;
            text += &format!("P {p} {prime} {active} {through}\n");
        }
        text.extend(self.rows.iter().map(print_row));
        text.extend(self.requests.iter().map(print_request));
        text
    }
}

fn add_line(tables: &mut Tables, line: &str) -> Option<()> {
    let words: Vec<&str> = line.split(' ').collect();
    let (first, rest) = words.split_first()?;
    match *first {
        "next" => tables.next = numbers::<1>(rest)?[0],
        "P" => {
            let [p, prime, active, through] = numbers::<4>(rest)?;
            let at = (p as usize).checked_sub(1)?;
            *tables.processes.get_mut(at)? = Process {
                prime,
                active,
                through,
            };
        }
        "R" => tables.rows.push(parse_row(rest)?),
        "Q" => tables.requests.push(parse_request(rest)?),
        _ => return None,
    }
    Some(())
}

fn numbers<const N: usize>(words: &[&str]) -> Option<[u32; N]> {
    let values: Option<Vec<u32>> = words.iter().map(|w| w.parse().ok()).collect();
    values?.try_into().ok()
}

fn parse_row(words: &[&str]) -> Option<Row> {
    let [number, kind, a, b, rights, place, s1, s2, depth, request] = words else {
        return None;
    };
    let (_, kind) = KINDS.into_iter().find(|(name, _)| name == kind)?;
    let place = parse_place(place)?;
    let fields = [*number, a, b, rights, s1, s2, depth, request];
    let [number, object, operation, rights, source, via, depth, request] = numbers(&fields)?;
    Some(Row {
        number,
        kind,
        object,
        operation,
        rights,
        place,
        source,
        via,
        depth,
        request,
    })
}

fn parse_place(word: &str) -> Option<Place> {
    if word == "s" {
        return Some(Place::System);
    }
    match word.split_at_checked(1)? {
        ("n", number) => number.parse().ok().map(Place::Node),
        ("p", number) => number.parse().ok().map(Place::CList),
        _ => None,
    }
}

fn parse_request(words: &[&str]) -> Option<Request> {
    let (fields, listed) = words.split_at_checked(4)?;
    let [number, port, asker, fetched] = numbers(fields)?;
    let mut items = [None; ITEMS];
    if listed.len() > ITEMS {
        return None;
    }
    for (item, word) in items.iter_mut().zip(listed) {
        *item = Some(word.parse().ok()?);
    }
    Some(Request {
        number,
        port,
        asker,
        fetched,
        items,
    })
}

fn print_row(row: &Row) -> String {
    let kind = KINDS.into_iter().find(|(_, kind)| *kind == row.kind);
    let kind = kind.map_or("", |(name, _)| name);
    let place = match row.place {
        Place::Node(n) => format!("n{n}"),
        Place::CList(p) => format!("p{p}"),
        Place::System => "s".to_string(),
    };
    format!(
        "R {} {kind} {} {} {} {place} {} {} {} {}\n",
        row.number,
        row.object,
        row.operation,
        row.rights,
        row.source,
        row.via,
        row.depth,
        row.request
    )
}

fn print_request(q: &Request) -> String {
    let items: String = q.listed().map(|i| format!(" {i}")).collect();
    format!(
        "Q {} {} {} {}{items}\n",
        q.number, q.port, q.asker, q.fetched
    )
}
