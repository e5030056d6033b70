//! What is read from a state is what the model reads: lent rows, rows that come from a request, and what a call changed.

use model::random::{session, SMALL};
use model::relations::{lent_rows, rows_from};
use model::session::Session;
use model::words::encode;
use std::collections::BTreeSet;
use tablet::{Place, State};
use tablet_see::change::change;
use tablet_see::relations::Reasons;

fn state_of(t: &model::Tables) -> State {
    let (tables, processes) = encode(t).expect("tables that fit");
    State::read(&tables, &processes).expect("words of tables")
}

/// The tables after each call of random sessions, and before it.
fn each_call(mut check: impl FnMut(&model::Tables, &model::Tables)) {
    for seed in 0..30 {
        let input = session(seed, SMALL[seed as usize % SMALL.len()], 80);
        let mut model = Session::begin(&input);
        loop {
            let before = model.tables.clone();
            if model.step().is_none() {
                break;
            }
            check(&before, &model.tables);
        }
    }
}

#[test]
fn lent_and_coming_rows_are_the_models() {
    let (mut lent, mut coming) = (0, 0);
    each_call(|_, t| {
        let state = state_of(t);
        let reasons = Reasons::lent(&state);
        assert_eq!(reasons.rows(), lent_rows(t));
        lent += reasons.rows().len();
        for request in &t.requests {
            let reasons = Reasons::comes(&state, request.number);
            assert_eq!(
                reasons.rows(),
                rows_from(t, &BTreeSet::from([request.number]))
            );
            coming += reasons.rows().len();
            for row in reasons.rows() {
                chain_is_right(t, &reasons.chain(row), request.number);
            }
        }
    });
    assert!(lent > 1000 && coming > 1000, "{lent} {coming}");
}

/// Each row of a chain has the next as a source, and the last bears the request's number.
fn chain_is_right(t: &model::Tables, chain: &[u32], request: u32) {
    for pair in chain.windows(2) {
        assert!(
            t.row(pair[0])
                .is_some_and(|row| row.comes_directly_from(pair[1])),
            "{chain:?}"
        );
    }
    let last = chain.last().and_then(|row| t.row(*row));
    assert!(last.is_some_and(|row| row.request == request), "{chain:?}");
}

#[test]
fn a_change_is_the_whole_difference() {
    let mut parts = [0; 8];
    each_call(|before, after| {
        let (before, after) = (state_of(before), state_of(after));
        let change = change(&before, &after);
        let mut again = before.clone();
        let gone = |n: u32| change.removed.iter().any(|r| r.number == n);
        again.rows.retain(|row| !gone(row.number));
        for row in &mut again.rows {
            let moved = change.moved.iter().find(|(to, _)| to.number == row.number);
            if let Some((to, from)) = moved {
                assert_eq!(*from, row.place);
                row.place = to.place;
            }
        }
        again.rows.extend(&change.made);
        again
            .requests
            .retain(|q| !change.closed.iter().any(|c| c.number == q.number));
        for q in &mut again.requests {
            q.fetched |= u32::from(change.fetched.iter().any(|f| f.number == q.number));
            let left = |item: u32| change.left.contains(&(q.number, item));
            q.items = q.items.map(|item| if left(item) { 0 } else { item });
        }
        again.requests.extend(&change.opened);
        for (p, record) in &change.records {
            again.processes[*p as usize - 1] = *record;
        }
        again.next = after.next;
        assert_eq!(again, after);
        let system = change
            .moved
            .iter()
            .filter(|(row, _)| row.place == Place::System)
            .count();
        let counts = [
            change.made.len(),
            change.removed.len(),
            change.moved.len(),
            change.opened.len(),
        ];
        let others = [
            change.closed.len(),
            change.left.len(),
            change.records.len(),
            system,
        ];
        for (sum, count) in parts.iter_mut().zip(counts.into_iter().chain(others)) {
            *sum += count;
        }
    });
    assert!(parts.iter().all(|count| *count > 0), "{parts:?}");
}
