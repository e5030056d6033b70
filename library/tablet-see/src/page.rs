//! `tablet-see page`: one page without network that steps through the session. What changes is written with the step
//! from which it holds, so that a page grows with the changes, not with the tables.

use crate::change::change;
use crate::draw;
use crate::explain::opening;
use crate::json::Json;
use crate::list;
use crate::relations::View;
use crate::session::{Session, Step};
use crate::shown;
use crate::told::told;
use crate::wording::sentence;
use std::collections::{BTreeMap, BTreeSet};
use std::io::{self, Write};
use tablet::{Kind, Place, Row, State};

/// With more rows a drawing shows what the line changed, and what that comes from.
const WHOLE: usize = 60;

/// What holds from a step on, until the next entry.
type Since<T> = Vec<(usize, T)>;

#[derive(Default)]
struct Data {
    lines: Vec<Json>,
    /// Each text once; elsewhere stands its place in this list.
    texts: BTreeMap<String, u32>,
    /// The note and the rows of each place.
    places: BTreeMap<Place, Since<(String, Vec<u32>)>>,
    requests: Since<Vec<u32>>,
    next: Since<u32>,
    drawings: Since<String>,
    /// For each process and privilege whether it is held.
    fields: BTreeMap<(u32, Privilege), Since<bool>>,
}

/// Writes the page of a session.
pub fn page(mut session: Session, out: &mut dyn Write) -> io::Result<()> {
    let mut data = Data::default();
    let first = first_line(&session);
    data.lines.push(first);
    data.state(0, &View::of(session.state()), None);
    while let Some(step) = session.step() {
        let told = told(&step, session.gone());
        let line = shown::line(&step.line);
        data.lines.push(line_json(
            &line,
            &step.answer.to_string(),
            step.answer.accepted(),
            &told,
        ));
        if step.before != step.after {
            data.state(step.call, &View::of(&step.after), Some(&step));
        }
    }
    let template = include_str!("page/page.html");
    let parts = [include_str!("page/page.css"), include_str!("draw/svg.css")].concat();
    let (head, rest) = template.split_once("STYLE").unwrap_or((template, ""));
    let (body, rest) = rest.split_once("DATA").unwrap_or((rest, ""));
    let (script, end) = rest.split_once("SCRIPT").unwrap_or((rest, ""));
    write!(
        out,
        "{head}{parts}{body}{}{script}{}{end}",
        data.json(),
        include_str!("page/page.js")
    )
}

/// Step 0: the opening.
fn first_line(session: &Session) -> Json {
    let text = String::from_utf8_lossy(session.opening()).into_owned();
    let told = vec![sentence(&opening(session.state()))];
    match text.is_empty() {
        true => line_json("tables handed in", "", true, &told),
        false => {
            let mut told = told;
            told.extend(text.lines().map(str::to_string));
            line_json("opening", "(ok 0)", true, &told)
        }
    }
}

fn line_json(line: &str, answer: &str, accepted: bool, told: &[String]) -> Json {
    Json::Object(vec![
        ("line", Json::text(line)),
        ("answer", Json::text(answer)),
        ("ok", Json::truth(accepted)),
        ("told", Json::List(told.iter().map(Json::text).collect())),
    ])
}

/// What a form can do while it has a row, whatever its rights; the kinds in their order.
type Privilege = (u32, String);

fn privilege(row: &Row) -> Privilege {
    match row.kind {
        Kind::Operation => (1, format!("operation {} of {}", row.operation, row.object)),
        Kind::Subdirectory => (2, format!("go to node {}", row.object)),
        Kind::Client => (3, format!("ask over port {}", row.object)),
        Kind::Server => (4, format!("serve port {}", row.object)),
    }
}

impl Data {
    fn text(&mut self, text: String) -> u32 {
        let next = self.texts.len() as u32;
        *self.texts.entry(text).or_insert(next)
    }

    /// Notes what is different from the step before.
    fn state(&mut self, at: usize, state: &View, step: Option<&Step>) {
        let mut places: BTreeSet<Place> = self.places.keys().copied().collect();
        places.extend(list::nodes(state).into_iter().map(Place::Node));
        places.extend(state.listed().map(Place::CList).chain([Place::System]));
        for place in places {
            let rows: Vec<String> = state.at(place).map(|row| list::row(state, row)).collect();
            let rows: Vec<u32> = rows.into_iter().map(|text| self.text(text)).collect();
            let note = draw::lane_words(state, place).1;
            since(self.places.entry(place).or_default(), at, (note, rows));
        }
        let requests: Vec<String> = state.requests.iter().map(list::request).collect();
        let requests = requests.into_iter().map(|text| self.text(text)).collect();
        since(&mut self.requests, at, requests);
        since(&mut self.next, at, state.next);
        since(&mut self.drawings, at, drawing(state, step));
        self.fields(at, state);
    }

    /// (rule R4) Which privileges each process has.
    fn fields(&mut self, at: usize, state: &State) {
        let held = state.rows.iter().filter_map(|row| match row.place {
            Place::CList(p) => Some((p, privilege(row))),
            _ => None,
        });
        let held: BTreeSet<(u32, Privilege)> = held.collect();
        for (key, held_since) in &mut self.fields {
            since(held_since, at, held.contains(key));
        }
        for key in held {
            self.fields.entry(key).or_insert_with(|| vec![(at, true)]);
        }
    }

    fn json(self) -> Json {
        let mut texts: Vec<(&String, u32)> =
            self.texts.iter().map(|(text, n)| (text, *n)).collect();
        texts.sort_by_key(|(_, n)| *n);
        let texts = texts.into_iter().map(|(text, _)| Json::text(text));
        let places = self.places.iter().map(|(place, changes)| {
            let entry = |(note, rows): &(String, Vec<u32>)| {
                Json::List(vec![Json::text(note), Json::numbers(rows.iter().copied())])
            };
            Json::Object(vec![
                ("title", Json::text(place.to_string())),
                ("since", json_since(changes, entry)),
            ])
        });
        let fields = self.fields.iter().map(|((p, (_, privilege)), changes)| {
            Json::Object(vec![
                ("process", Json::Number(*p)),
                ("privilege", Json::text(privilege)),
                ("since", json_since(changes, |held| Json::truth(*held))),
            ])
        });
        Json::Object(vec![
            ("lines", Json::List(self.lines)),
            ("texts", Json::List(texts.collect())),
            ("places", Json::List(places.collect())),
            (
                "requests",
                json_since(&self.requests, |rows| Json::numbers(rows.iter().copied())),
            ),
            ("next", json_since(&self.next, |next| Json::Number(*next))),
            (
                "drawings",
                json_since(&self.drawings, |svg| Json::text(svg)),
            ),
            ("fields", Json::List(fields.collect())),
        ])
    }
}

/// Adds an entry if it differs from the last.
fn since<T: PartialEq>(changes: &mut Since<T>, at: usize, now: T) {
    if changes.last().is_none_or(|(_, last)| *last != now) {
        changes.push((at, now));
    }
}

fn json_since<T>(changes: &Since<T>, entry: impl Fn(&T) -> Json) -> Json {
    let changes = changes
        .iter()
        .map(|(at, now)| Json::List(vec![Json::Number(*at as u32), entry(now)]));
    Json::List(changes.collect())
}

/// The whole state, or around what a call changed.
fn drawing(state: &View, step: Option<&Step>) -> String {
    let picture = match step.filter(|_| state.rows.len() > WHOLE) {
        Some(step) => {
            let change = change(&step.before, &step.after);
            let rows = change
                .made
                .iter()
                .chain(change.moved.iter().map(|(row, _)| row));
            let rows = rows.map(|row| row.number).take(WHOLE);
            draw::part(state, &rows.collect())
        }
        None => draw::whole(state),
    };
    draw::svg::svg(&picture, false)
}
