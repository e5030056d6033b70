//! A picture as SVG.

use super::{Card, Lane, Marked, Picture, RequestCard};
use std::collections::BTreeMap;
use std::fmt::Write;
use tablet::{Kind, Place};

const STYLE: &str = include_str!("svg.css");
const CARD_HEIGHT: u32 = 42;
const ROW_PITCH: u32 = 54;
const COLUMN_GAP: u32 = 74;
const LANE_LABEL: u32 = 118;
const LANE_PAD: u32 = 10;
const LANE_GAP: u32 = 8;
const MARGIN: u32 = 8;
const LETTER: u32 = 7;
/// Where a lane's words and a card's number begin, and what is free behind a card's words.
const INDENT: u32 = 10;

/// Where a card is, its top left corner.
#[derive(Clone, Copy)]
struct Spot {
    x: u32,
    y: u32,
}

/// Everything in its place.
struct Plan<'a> {
    picture: &'a Picture,
    width: u32,
    height: u32,
    card_width: u32,
    /// Top and height of each lane, and last of the requests.
    lanes: Vec<(u32, u32)>,
    rows: BTreeMap<u32, Spot>,
    requests: BTreeMap<u32, Spot>,
}

/// A whole file, or with `styled` false the picture alone, for a page that has the style.
pub fn svg(picture: &Picture, styled: bool) -> String {
    let plan = plan(picture);
    let (w, h) = (plan.width, plan.height);
    // in a page it shrinks to three quarters at most, then it is scrolled
    let (style, least) = match styled {
        true => (format!("<style>\n{STYLE}</style>\n"), String::new()),
        false => (
            String::new(),
            format!(" style=\"min-width:{}px\"", w * 3 / 4),
        ),
    };
    let mut out = format!(
        "<svg xmlns=\"http://www.w3.org/2000/svg\" class=\"tablet\" viewBox=\"0 0 {w} {h}\" width=\"{w}\" height=\"{h}\"{least} \
         role=\"img\" aria-label=\"who holds what, and what comes from what\">\n{style}"
    );
    out += "<defs><marker id=\"tip\" viewBox=\"0 0 8 8\" refX=\"7\" refY=\"4\" markerWidth=\"7\" markerHeight=\"7\" \
            orient=\"auto\"><path class=\"tip\" d=\"M0 0 8 4 0 8z\"/></marker></defs>\n";
    out += &format!("<rect class=\"ground\" width=\"{w}\" height=\"{h}\"/>\n");
    for (lane, (top, height)) in picture.lanes.iter().zip(&plan.lanes) {
        out += &lane_box(lane, *top, *height, w);
    }
    if let (Some((top, height)), false) = (
        plan.lanes.get(picture.lanes.len()),
        picture.requests.is_empty(),
    ) {
        out += &label("requests", "requests", "open", *top, *height, w);
    }
    let cards = || picture.lanes.iter().flat_map(|lane| &lane.cards);
    cards().for_each(|card| out += &sources(&plan, card));
    cards().for_each(|card| out += &port(&plan, card));
    picture
        .requests
        .iter()
        .for_each(|q| out += &request_lines(&plan, q));
    cards().for_each(|card| out += &card_box(&plan, card));
    picture
        .requests
        .iter()
        .for_each(|q| out += &request_box(&plan, q));
    out + "</svg>\n"
}

/// Columns are the depths that occur; a lane is as high as its fullest column.
fn plan(picture: &Picture) -> Plan<'_> {
    let cards = || picture.lanes.iter().flat_map(|lane| &lane.cards);
    let mut depths: Vec<u32> = cards().map(|card| card.row.depth).collect();
    depths.sort_unstable();
    depths.dedup();
    let of_rows = cards().map(|c| width(c.row.number, &c.title, &c.subtitle));
    let requests = picture.requests.iter();
    let of_requests = requests.map(|q| width(q.request.number, &q.title, &q.subtitle));
    let card_width = of_rows.chain(of_requests).max().unwrap_or(84);
    let lane_label = lane_label(picture);
    let column = |depth: u32| depths.iter().position(|d| *d == depth).unwrap_or(0) as u32;
    let x = |depth: u32| MARGIN + lane_label + column(depth) * (card_width + COLUMN_GAP);
    let columns = depths.len().max(1) as u32;
    let mut plan = Plan {
        picture,
        width: 2 * MARGIN + lane_label + columns * (card_width + COLUMN_GAP),
        height: MARGIN,
        card_width,
        lanes: Vec::new(),
        rows: BTreeMap::new(),
        requests: BTreeMap::new(),
    };
    for lane in &picture.lanes {
        let cards = lane
            .cards
            .iter()
            .map(|card| (card.row.number, card.row.depth));
        let spots = plan.lane(cards, &x);
        plan.rows.extend(spots);
    }
    if !picture.requests.is_empty() {
        let cards = beside_ports(picture, &depths).into_iter();
        plan.requests = plan.lane(cards, &x).into_iter().collect();
    }
    plan.height += MARGIN;
    plan
}

/// How far from a card's left its words begin: after its number, whose digits are wider than letters.
fn words_at(number: u32) -> u32 {
    let digits = number.to_string().len() as u32;
    (INDENT + 6 + 9 * digits).max(INDENT + 2 + 21 * digits / 2)
}

/// The width of a card with that number and these words.
fn width(number: u32, title: &str, subtitle: &str) -> u32 {
    let letters = title.len().max(subtitle.len()) as u32;
    words_at(number) + letters * LETTER + INDENT
}

/// The width of what stands before the cards of a lane.
fn lane_label(picture: &Picture) -> u32 {
    let letters = picture.lanes.iter().map(|lane| lane.subtitle.len() as u32);
    let widest = letters.max().unwrap_or(0) * LETTER + 2 * INDENT;
    widest.max(LANE_LABEL)
}

/// Each request in a column that has the fewest, and of these in the one nearest to its port's.
fn beside_ports(picture: &Picture, depths: &[u32]) -> Vec<(u32, u32)> {
    let mut taken: BTreeMap<u32, u32> = depths.iter().map(|depth| (*depth, 0)).collect();
    let place = |q: &RequestCard| {
        let nearest = |(depth, count): &(&u32, &mut u32)| (**count, depth.abs_diff(q.depth));
        let (depth, count) = taken.iter_mut().min_by_key(nearest)?;
        *count += 1;
        Some((q.request.number, *depth))
    };
    picture.requests.iter().filter_map(place).collect()
}

impl Plan<'_> {
    /// Stacks cards of a new lane column by column.
    fn lane(
        &mut self,
        cards: impl Iterator<Item = (u32, u32)>,
        x: &dyn Fn(u32) -> u32,
    ) -> Vec<(u32, Spot)> {
        let mut stacks: BTreeMap<u32, u32> = BTreeMap::new();
        let top = self.height;
        let mut spots = Vec::new();
        for (number, depth) in cards {
            let stack = stacks.entry(depth).or_insert(0);
            let y = top + LANE_PAD + *stack * ROW_PITCH;
            spots.push((number, Spot { x: x(depth), y }));
            *stack += 1;
        }
        let fullest = stacks.values().copied().max().unwrap_or(0).max(1);
        let height = fullest * ROW_PITCH + 2 * LANE_PAD - (ROW_PITCH - CARD_HEIGHT);
        self.lanes.push((top, height));
        self.height += height + LANE_GAP;
        spots
    }

    /// The class of what belongs to a row: marked or not, if something is looked at.
    fn mark(&self, row: u32) -> &'static str {
        match &self.picture.marked {
            None => "",
            Some(marked) if marked.has(row) => " marked",
            Some(_) => " dim",
        }
    }

    /// The class of the arrow to a row's second source, which is on no first chain.
    fn mark_second(&self, row: u32) -> &'static str {
        match &self.picture.marked {
            Some(Marked::Chain(_)) => " dim",
            _ => self.mark(row),
        }
    }
}

fn lane_box(lane: &Lane, top: u32, height: u32, width: u32) -> String {
    let class = match lane.place {
        Place::Node(_) => "node",
        Place::CList(_) => "process",
        Place::System => "system",
    };
    label(class, &lane.title, &lane.subtitle, top, height, width)
}

fn label(class: &str, title: &str, subtitle: &str, top: u32, height: u32, width: u32) -> String {
    let mut out = format!(
        "<rect class=\"lane {class}\" x=\"{MARGIN}\" y=\"{top}\" width=\"{}\" height=\"{height}\" rx=\"6\"/>\n",
        width - 2 * MARGIN
    );
    let x = MARGIN + INDENT;
    // a string takes every write
    let _ = writeln!(
        out,
        "<text class=\"holder\" x=\"{x}\" y=\"{}\">{title}</text>",
        top + 28
    );
    if !subtitle.is_empty() {
        let _ = writeln!(
            out,
            "<text class=\"where\" x=\"{x}\" y=\"{}\">{subtitle}</text>",
            top + 46
        );
    }
    out
}

/// An arrow to each source that is drawn.
fn sources(plan: &Plan, card: &Card) -> String {
    let mut out = String::new();
    let Some(at) = plan.rows.get(&card.row.number) else {
        return out;
    };
    for (source, class) in card.row.sources.into_iter().zip(["first", "second"]) {
        let Some(to) = plan.rows.get(&source) else {
            continue;
        };
        let (shift, mark) = match class {
            "first" => (0, plan.mark(card.row.number)),
            _ => (10, plan.mark_second(card.row.number)),
        };
        let (x1, y1) = (at.x, at.y + CARD_HEIGHT / 2 + shift);
        let (x2, y2) = (to.x + plan.card_width, to.y + CARD_HEIGHT / 2);
        let apart = x1.saturating_sub(x2);
        // over more than one column it goes above the cards between
        let (bend, lift) = match apart > COLUMN_GAP {
            true => (apart / 4, 40),
            false => (apart / 2, 0),
        };
        out += &format!(
            "<path class=\"source {class}{mark}\" marker-end=\"url(#tip)\" d=\"M{x1} {y1}C{} {} {} {} {x2} {y2}\"/>\n",
            x1 - bend,
            y1.saturating_sub(lift),
            x2 + bend,
            y2.saturating_sub(lift)
        );
    }
    out
}

/// The line that joins a client end with its server end.
fn port(plan: &Plan, card: &Card) -> String {
    let ends = (
        plan.rows.get(&card.row.number),
        plan.rows.get(&(card.row.number + 1)),
    );
    let (Kind::Client, (Some(client), Some(server))) = (card.row.kind, ends) else {
        return String::new();
    };
    let x = client.x + plan.card_width;
    let (y1, y2) = (client.y + CARD_HEIGHT - 10, server.y + 10);
    let bend = x + 18 + 7 * (card.row.number % 5);
    let mark = plan.mark(card.row.number);
    format!("<path class=\"port{mark}\" d=\"M{x} {y1}C{bend} {y1} {bend} {y2} {x} {y2}\"/>\n")
}

/// From a request to the client end of its port, and to what it lends: up beside the column, and into the card's right.
fn request_lines(plan: &Plan, q: &RequestCard) -> String {
    let Some(at) = plan.requests.get(&q.request.number) else {
        return String::new();
    };
    let mut out = String::new();
    let mut line = |row: u32, class: &str, shift: u32, k: u32| {
        if let Some(to) = plan.rows.get(&row) {
            let (x1, y1) = (at.x + plan.card_width - 24 - 14 * k, at.y);
            let (x2, y2) = (to.x + plan.card_width, to.y + shift);
            let beside = x2 + 8 + q.request.number % 36 * 7 % 36;
            out += &format!(
                "<path class=\"{class}\" d=\"M{x1} {y1}C{x1} {} {beside} {} {beside} {}V{}Q{beside} {y2} {x2} {y2}\"/>\n",
                y1 - 30,
                y1 - 6,
                y1 - 36,
                y2 + 12
            );
        }
    };
    line(q.request.port, "asks", 12, 0);
    for (item, k) in q.request.listed().zip(1..) {
        line(item, "lends", CARD_HEIGHT - 8, k);
    }
    out
}

fn card_box(plan: &Plan, card: &Card) -> String {
    let Some(at) = plan.rows.get(&card.row.number) else {
        return String::new();
    };
    let kind = match card.row.kind {
        Kind::Operation => "operation",
        Kind::Subdirectory => "subdirectory",
        Kind::Client => "client",
        Kind::Server => "server",
    };
    let lent = if card.lent { " lent" } else { "" };
    let class = format!("card {kind}{lent}{}", plan.mark(card.row.number));
    let shape = match card.row.kind {
        Kind::Client | Kind::Server => 20,
        _ => 4,
    };
    boxed(
        plan,
        *at,
        &class,
        shape,
        (card.row.number, &card.title, &card.subtitle),
        &card.note,
    )
}

fn request_box(plan: &Plan, q: &RequestCard) -> String {
    let Some(at) = plan.requests.get(&q.request.number) else {
        return String::new();
    };
    let words = (q.request.number, q.title.as_str(), q.subtitle.as_str());
    let class = match plan.picture.marked {
        Some(Marked::Request(request, _)) if request == q.request.number => "card request marked",
        _ => "card request",
    };
    boxed(
        plan,
        *at,
        class,
        4,
        words,
        &crate::list::request(&q.request),
    )
}

fn boxed(
    plan: &Plan,
    at: Spot,
    class: &str,
    round: u32,
    words: (u32, &str, &str),
    note: &str,
) -> String {
    let Spot { x, y } = at;
    let (number, title, subtitle) = words;
    let text = x + words_at(number);
    let width = plan.card_width;
    format!(
        "<g class=\"{class}\"><title>{note}</title><rect x=\"{x}\" y=\"{y}\" width=\"{width}\" height=\"{CARD_HEIGHT}\" rx=\"{round}\"/>\
         <text class=\"number\" x=\"{}\" y=\"{}\">{number}</text><text x=\"{text}\" y=\"{}\">{title}</text>\
         <text class=\"small\" x=\"{text}\" y=\"{}\">{subtitle}</text></g>\n",
        x + INDENT,
        y + 27,
        y + 18,
        y + 34
    )
}
