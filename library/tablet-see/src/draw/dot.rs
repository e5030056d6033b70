//! A picture as a graph for the program `dot`.

use super::{Card, Picture, RequestCard};
use std::collections::BTreeSet;
use tablet::Kind;

pub fn dot(picture: &Picture) -> String {
    let cards = || picture.lanes.iter().flat_map(|lane| &lane.cards);
    let drawn: BTreeSet<u32> = cards().map(|card| card.row.number).collect();
    let mut out =
        "digraph tablet {\n  rankdir=RL;\n  node [style=filled, fontname=\"sans-serif\"];\n"
            .to_string();
    for (lane, at) in picture.lanes.iter().zip(0..) {
        let place = if lane.subtitle.is_empty() {
            String::new()
        } else {
            format!(", {}", lane.subtitle)
        };
        out += &format!(
            "  subgraph cluster_{at} {{\n    label=\"{}{place}\";\n",
            lane.title
        );
        lane.cards
            .iter()
            .for_each(|card| out += &node(picture, card));
        out += "  }\n";
    }
    cards().for_each(|card| out += &edges(card, &drawn));
    picture
        .requests
        .iter()
        .for_each(|q| out += &request(q, &drawn));
    out + "}\n"
}

fn node(picture: &Picture, card: &Card) -> String {
    let (shape, fill) = match card.row.kind {
        Kind::Operation => ("box", "#dbe8f8"),
        Kind::Subdirectory => ("folder", "#fbe9c3"),
        Kind::Client => ("ellipse", "#d9f0dc"),
        Kind::Server => ("ellipse", "#ecdff5"),
    };
    let style = if card.lent { "filled,dashed" } else { "filled" };
    let marked = picture
        .marked
        .as_ref()
        .is_some_and(|marked| marked.has(card.row.number));
    let mark = if marked {
        ", color=\"#c4161c\", penwidth=4"
    } else {
        ""
    };
    let n = card.row.number;
    format!(
        "    r{n} [shape={shape}, style=\"{style}\", fillcolor=\"{fill}\", label=\"{n}: {}\\n{}\"{mark}];\n",
        card.title, card.subtitle
    )
}

fn edges(card: &Card, drawn: &BTreeSet<u32>) -> String {
    let n = card.row.number;
    let mut out = String::new();
    for (source, style) in card.row.sources.into_iter().zip(["solid", "dotted"]) {
        if drawn.contains(&source) {
            out += &format!("  r{n} -> r{source} [style={style}];\n");
        }
    }
    if card.row.kind == Kind::Client && drawn.contains(&(n + 1)) {
        out += &format!(
            "  r{n} -> r{} [dir=none, penwidth=4, color=\"#1b6b2c\", constraint=false];\n",
            n + 1
        );
    }
    out
}

fn request(q: &RequestCard, drawn: &BTreeSet<u32>) -> String {
    let n = q.request.number;
    let mut out = format!(
        "  q{n} [shape=note, fillcolor=\"#fde3df\", label=\"request {n}\\n{}\\n{}\"];\n",
        q.title, q.subtitle
    );
    if drawn.contains(&q.request.port) {
        out += &format!("  q{n} -> r{} [color=\"#a3261a\"];\n", q.request.port);
    }
    for item in q.request.listed().filter(|item| drawn.contains(item)) {
        out += &format!("  q{n} -> r{item} [color=\"#a3261a\", style=dashed];\n");
    }
    out
}
