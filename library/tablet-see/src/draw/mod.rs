//! `tablet-see draw`: who holds what and what comes from what. A holder is a lane, a row is a card in its lane, and its
//! column is its depth, so that every source stands to the left.

pub mod dot;
pub mod svg;

use crate::args::Focus;
use crate::list;
use crate::relations::{above, around, first_chain, listing, Reasons, View};
use crate::wording::right_names;
use std::collections::BTreeSet;
use tablet::{Kind, Place, Request, Row};

/// What is drawn.
pub struct Picture {
    pub lanes: Vec<Lane>,
    pub requests: Vec<RequestCard>,
    pub marked: Option<Marked>,
}

/// What is looked at.
pub enum Marked {
    /// A request and the rows that come from it.
    Request(u32, BTreeSet<u32>),
    /// The first chain of a row.
    Chain(BTreeSet<u32>),
}

impl Marked {
    pub fn has(&self, row: u32) -> bool {
        match self {
            Marked::Request(_, rows) | Marked::Chain(rows) => rows.contains(&row),
        }
    }
}

/// A holder: a node, a c-list or the system.
pub struct Lane {
    pub place: Place,
    pub title: String,
    pub subtitle: String,
    pub cards: Vec<Card>,
}

/// A row.
pub struct Card {
    pub row: Row,
    pub title: String,
    pub subtitle: String,
    pub lent: bool,
    /// All that is known of it, in words.
    pub note: String,
}

/// An open request.
pub struct RequestCard {
    pub request: Request,
    /// Of the ends of its port.
    pub depth: u32,
    pub title: String,
    pub subtitle: String,
}

/// The picture of a state, or why there is none.
pub fn picture(state: &View, focus: Focus) -> Result<Picture, String> {
    if let Some(row) = focus.row.filter(|n| state.row(*n).is_none()) {
        return Err(format!("--row {row}: no such row stands"));
    }
    if let Some(request) = focus.request.filter(|n| state.request(*n).is_none()) {
        return Err(format!("--request {request}: no such request is open"));
    }
    let part = focus.row.map(|row| around(state, row));
    let drawn = |row: &Row| part.as_ref().is_none_or(|part| part.contains(&row.number));
    Ok(Picture {
        lanes: lanes(state, &drawn, part.is_some()),
        requests: requests(state, &drawn),
        marked: marked(state, focus),
    })
}

/// What comes from the request, else the first chain of the row.
fn marked(state: &View, focus: Focus) -> Option<Marked> {
    let coming = |q| Marked::Request(q, Reasons::comes(state, q).rows());
    let chain = |e| Marked::Chain(first_chain(state, e).iter().map(|r| r.number).collect());
    focus.request.map(coming).or(focus.row.map(chain))
}

/// The picture of a whole state.
pub fn whole(state: &View) -> Picture {
    Picture {
        lanes: lanes(state, &|_| true, false),
        requests: requests(state, &|_| true),
        marked: None,
    }
}

/// Some rows and all that they come from.
pub fn part(state: &View, rows: &BTreeSet<u32>) -> Picture {
    let part = above(state, rows);
    let drawn = |row: &Row| part.contains(&row.number);
    Picture {
        lanes: lanes(state, &drawn, true),
        requests: requests(state, &drawn),
        marked: None,
    }
}

/// The holders; in a part of the state only those that hold something of it.
fn lanes(state: &View, drawn: &dyn Fn(&Row) -> bool, only_part: bool) -> Vec<Lane> {
    let nodes = list::nodes(state).into_iter().map(Place::Node);
    let places = nodes.chain(state.listed().map(Place::CList));
    let lanes = places.chain([Place::System]).map(|place| {
        let rows = state.at(place).filter(|row| drawn(row));
        let (title, subtitle) = lane_words(state, place);
        Lane {
            place,
            title,
            subtitle,
            cards: rows.map(|row| card(state, row)).collect(),
        }
    });
    lanes
        .filter(|lane| !lane.cards.is_empty() || !only_part && lane.place != Place::System)
        .collect()
}

pub fn lane_words(state: &View, place: Place) -> (String, String) {
    let inside = match place {
        Place::CList(p) => state
            .process(p)
            .map_or(String::new(), |record| match record.through {
                0 => format!("in node {}", record.active),
                row => format!("in node {} through {row}", record.active),
            }),
        _ => String::new(),
    };
    match place {
        Place::Node(n) => (format!("node {n}"), inside),
        Place::CList(p) => (format!("process {p}"), inside),
        Place::System => ("system".to_string(), "lent, not fetched".to_string()),
    }
}

fn card(state: &View, row: &Row) -> Card {
    let title = match row.kind {
        Kind::Operation => format!("operation {} of {}", row.operation, row.object),
        Kind::Subdirectory => format!("subdirectory {}", row.object),
        Kind::Client => "client end".to_string(),
        Kind::Server => "server end".to_string(),
    };
    let lent = state.lent.request(row.number).is_some();
    Card {
        row: *row,
        title,
        subtitle: card_words(state, row),
        lent,
        note: list::row(state, row),
    }
}

/// The second line of a card: rights or port, and the loan.
fn card_words(state: &View, row: &Row) -> String {
    let loans: Vec<String> = listing(state, row.number)
        .map(|q| q.number.to_string())
        .collect();
    let first = match row.port() {
        Some(port) => format!("port {port}"),
        None if row.rights == 0 => "no rights".to_string(),
        None => right_names(row.rights).join(" "),
    };
    match loans.as_slice() {
        [] => first,
        loans => format!("{first}, lent in {}", loans.join(" ")),
    }
}

/// The requests on ports of which an end is drawn, and those that list a row that is.
fn requests(state: &View, drawn: &dyn Fn(&Row) -> bool) -> Vec<RequestCard> {
    let shown = |q: &&Request| {
        let ends = [q.port, q.port + 1];
        let rows = ends.into_iter().chain(q.listed());
        rows.filter_map(|n| state.row(n)).any(drawn)
    };
    let card = |q: &Request| {
        let fetched = if q.fetched == 0 {
            "not fetched"
        } else {
            "fetched"
        };
        let items: Vec<String> = q.listed().map(|i| i.to_string()).collect();
        let items = if items.is_empty() {
            "nothing".to_string()
        } else {
            items.join(" ")
        };
        RequestCard {
            request: *q,
            depth: state.row(q.port).map_or(1, |end| end.depth),
            title: format!("asked by {}, {fetched}", q.asker),
            subtitle: format!("port {}, lends {items}", q.port),
        }
    };
    state.requests.iter().filter(shown).map(card).collect()
}
