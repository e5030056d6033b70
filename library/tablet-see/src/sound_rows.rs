//! The clauses about rows: fields, the five sorts of rows, depth, copies, ends in pairs (rules S9 to S17).

use crate::sound::{fault, Fault};
use crate::wording::{at, short};
use tablet::{Kind, Place, Row, State};

/// (rules S9, S10, S11, S13, S14, S15, S17) The first clause that a row fails.
pub fn rows(s: &State) -> Option<Fault> {
    s.rows.iter().find_map(|row| {
        object(s, row)
            .or_else(|| rights(row))
            .or_else(|| place(s, row))
            .or_else(|| sort(s, row))
            .or_else(|| depth(s, row))
            .or_else(|| copy(s, row))
            .or_else(|| pair(s, row))
    })
}

/// (rule S9) The object of each kind.
fn object(s: &State, row: &Row) -> Option<Fault> {
    let (n, o) = (row.number, row.object);
    let wrong = match row.kind {
        Kind::Operation if s.process(o).is_none() => {
            format!("names the manager {o}, which is not listed")
        }
        Kind::Operation if row.operation > 255 => {
            format!("names operation {}, above 255", row.operation)
        }
        Kind::Subdirectory if !(1..=32).contains(&o) => format!("names node {o}, not 1 to 32"),
        Kind::Client if o != n => format!("is a client end and names port {o}, not {n}"),
        Kind::Server if o.checked_add(1) != Some(n) => {
            format!("is a server end and names port {o}, not {}", n - 1)
        }
        Kind::Operation => return None,
        kind if row.operation != 0 => format!("is a {kind} and has operation {}", row.operation),
        _ => return None,
    };
    fault("S9", format!("row {n} {wrong}"))
}

/// (rule S10) Rights.
fn rights(row: &Row) -> Option<Fault> {
    let greatest = if row.is_end() { 0 } else { 7 };
    if row.rights <= greatest {
        return None;
    }
    fault(
        "S10",
        format!("{} has rights {}, above {greatest}", short(row), row.rights),
    )
}

/// (rule S11) Place.
fn place(s: &State, row: &Row) -> Option<Fault> {
    let holds = match row.place {
        Place::Node(n) => (1..=32).contains(&n),
        Place::CList(p) => s.process(p).is_some(),
        Place::System => true,
    };
    if holds {
        return None;
    }
    fault(
        "S11",
        format!(
            "{} is {}, which is no node from 1 to 32 and no listed process",
            short(row),
            at(row.place)
        ),
    )
}

/// (rule S13) Every row is one of five. The layout sees to it that sources stand and are older.
fn sort(s: &State, row: &Row) -> Option<Fault> {
    let [first, second] = row.sources.map(|source| s.row(source));
    let in_node = |r: &Row| matches!(r.place, Place::Node(_));
    let no_loan = row.bears == 0;
    let opening = in_node(row) && row.sources == [0, 0] && no_loan;
    let from_node = first.is_some_and(in_node);
    let registered = in_node(row) && from_node && row.sources[1] == 0 && no_loan;
    let second_dir = row.sources[1] == 0 || second.is_some_and(|d| d.kind == Kind::Subdirectory);
    let held = matches!(row.place, Place::CList(_)) && from_node && second_dir && no_loan;
    let over = s
        .request(row.bears)
        .is_some_and(|q| q.port == row.sources[1]);
    let of_row = first.is_some_and(|r| !r.is_end());
    let copy = !in_node(row) && of_row && second.is_some_and(|c| c.kind == Kind::Client) && over;
    let of_operation = first.is_some_and(|r| r.kind == Kind::Operation);
    let end = row.is_end() && !in_node(row) && of_operation && row.sources[1] == 0 && no_loan;
    if end || !row.is_end() && (opening || registered || held || copy) {
        return None;
    }
    let [a, b] = row.sources;
    let text = format!(
        "{} is {} with the sources {a} and {b} and bears {}: it is no opening row, registered row, held row, end or lent copy",
        short(row),
        at(row.place),
        row.bears
    );
    fault("S13", text)
}

/// (rule S14) Depth.
fn depth(s: &State, row: &Row) -> Option<Fault> {
    let deepest = row
        .sources()
        .filter_map(|source| s.row(source))
        .map(|r| r.depth)
        .max();
    let wanted = deepest.unwrap_or(0).saturating_add(1);
    if row.depth == wanted && wanted <= 12 {
        return None;
    }
    fault(
        "S14",
        format!(
            "{} has depth {}; by its sources it is {wanted}, and at most 12 is allowed",
            short(row),
            row.depth
        ),
    )
}

/// (rule S15) A copy is as its first source.
fn copy(s: &State, row: &Row) -> Option<Fault> {
    let source = s.row(row.sources[0]).filter(|_| !row.is_end())?;
    if (source.kind, source.object, source.operation) != (row.kind, row.object, row.operation) {
        return fault(
            "S15",
            format!(
                "{} is a copy of {}, but names another thing",
                short(row),
                short(source)
            ),
        );
    }
    if row.rights & !source.rights != 0 {
        return fault(
            "S15",
            format!(
                "{} has rights {}, not within the rights {} of its source {}",
                short(row),
                row.rights,
                source.rights,
                source.number
            ),
        );
    }
    None
}

/// (rule S17) Ends stand in pairs with one source.
fn pair(s: &State, row: &Row) -> Option<Fault> {
    let (other, kind) = match row.kind {
        Kind::Client => (row.number.checked_add(1)?, Kind::Server),
        Kind::Server => (row.number.checked_sub(1)?, Kind::Client),
        _ => return None,
    };
    let paired = s
        .row(other)
        .is_some_and(|r| r.kind == kind && r.sources == row.sources && r.object == row.object);
    if paired {
        return None;
    }
    fault(
        "S17",
        format!(
            "{} has no other end {other} with the same source",
            short(row)
        ),
    )
}
