//! The clauses of soundness of the rows.

use super::view::{listed, Row, View};
use crate::layout::{CLIENT, OPERATION, PROCESS_WORDS, SERVER, SUBDIRECTORY, SYSTEM};

pub fn rows_sound(t: &View, p: &[u32; PROCESS_WORDS]) -> bool {
    (0..t.row_count).all(|slot| row_sound(t, p, slot))
}

fn row_sound(t: &View, p: &[u32; PROCESS_WORDS], slot: usize) -> bool {
    let row = t.row(slot);
    fields_in_range(&row, p) && sources_sound(t, &row) && paired(t, slot, &row)
}

fn fields_in_range(r: &Row, p: &[u32; PROCESS_WORDS]) -> bool {
    let object = match r.kind {
        OPERATION => listed(p, r.object) && r.operation <= 255 && r.rights <= 7,
        SUBDIRECTORY => (1..=32).contains(&r.object) && r.operation == 0 && r.rights <= 7,
        CLIENT => r.object == r.number && r.operation == 0 && r.rights == 0,
        SERVER => r.number.checked_sub(1) == Some(r.object) && r.operation == 0 && r.rights == 0,
        _ => false,
    };
    let place = match r.place {
        SYSTEM => true,
        101..=164 => listed(p, r.place - 100),
        _ => r.in_node(),
    };
    object && place
}

fn sources_sound(t: &View, r: &Row) -> bool {
    let source = t.source(r.source);
    let via = t.source(r.via);
    r.depth == source.depth.max(via.depth) + 1
        && r.depth <= 12
        && shape_right(t, r, &source, &via)
        && (r.source == 0 || r.is_end() || copy_matches(r, &source))
}

/// An opening row, a registered one, a held one, an end, a lent copy.
fn shape_right(t: &View, r: &Row, source: &Row, via: &Row) -> bool {
    if r.request != 0 {
        return is_lent_copy(t, r, source, via);
    }
    if r.is_end() {
        return !r.in_node() && source.kind == OPERATION && r.via == 0;
    }
    if r.in_node() {
        return r.via == 0 && (r.source == 0 || source.in_node());
    }
    let through = r.via == 0 || via.kind == SUBDIRECTORY;
    r.in_clist() && source.in_node() && through
}

fn is_lent_copy(t: &View, r: &Row, source: &Row, via: &Row) -> bool {
    let rows = !r.in_node() && r.is_copied() && source.is_copied() && via.kind == CLIENT;
    let borne = t.find_request(r.request);
    rows && borne.is_some_and(|q| {
        let port = t.requests[1][q];
        port == via.number && r.request < r.number && t.items(q).contains(&r.number)
    })
}

fn copy_matches(r: &Row, source: &Row) -> bool {
    let object = (r.kind, r.object, r.operation);
    object == (source.kind, source.object, source.operation) && r.rights & !source.rights & 7 == 0
}

/// The other end of a port stands in the next slot, or in the one before.
fn paired(t: &View, slot: usize, r: &Row) -> bool {
    let other = match r.kind {
        CLIENT if slot + 1 < t.row_count => t.row(slot + 1),
        SERVER if slot > 0 => t.row(slot - 1),
        CLIENT | SERVER => return false,
        _ => return true,
    };
    r.number.abs_diff(other.number) == 1
        && other.is_end()
        && other.object == r.object
        && other.source == r.source
}
