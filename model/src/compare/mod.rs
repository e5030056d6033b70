//! The definitions compared with the model: cases that the prover computes.

pub mod altered;
pub mod antt;
pub mod bits;
pub mod by_hand;
pub mod case;
pub mod conformance;
pub mod features;
pub mod full;
pub mod histories;
pub mod joins;
pub mod lent;
pub mod limits;
pub mod pages;
pub mod pieces;
pub mod random_tables;
pub mod sessions;
pub mod shapes;
pub mod smaller;
pub mod states;
pub mod tables;
pub mod words;
pub mod write;

pub use case::Case;

use crate::random::Rng;

/// How many cases of each sort are written.
#[derive(Clone, Copy, Debug)]
pub struct Sizes {
    /// The most rows of a case of cases/; 0: none of them.
    pub by_hand: usize,
    /// Lines of the longest conformance session; 0: none, and none of the manual.
    pub lines: usize,
    /// The most rows of a piece of a longer one; 0: none.
    pub pieces: usize,
    /// Random sessions, others chosen for their features, the calls of each.
    pub sessions: usize,
    pub chosen: usize,
    pub calls: usize,
    pub damaged: usize,
    pub altered: usize,
    /// Conformance tables; single calls, chosen for their features.
    pub tables: usize,
    pub single: usize,
    /// Calls on sound tables that no session made.
    pub states: usize,
    /// Sound tables, of which it is told which rows are lent.
    pub lent: usize,
    /// Calls on full tables, at most 6.
    pub full: usize,
    pub words: usize,
    /// Histories of conformance sessions, and of chosen ones.
    pub histories: usize,
    /// Random pages; 0: none of conformance/ either.
    pub pages: usize,
    /// Random pairs of texts that are joined; 0: none of conformance/ either.
    pub joins: usize,
}

/// All cases of a seed.
pub fn cases(seed: u64, sizes: Sizes) -> std::io::Result<Vec<Case>> {
    let mut rng = Rng::new(seed);
    let mut cases = Vec::new();
    if sizes.by_hand > 0 {
        cases.extend(by_hand::by_hand(sizes.by_hand)?);
        cases.extend(joins::by_hand(|_| true)?);
        cases.extend(by_hand::all_histories()?);
        cases.extend(shapes::shapes());
    }
    cases.extend(sessions::conformance(sizes.lines)?);
    cases.extend(pieces::pieces(sizes.lines, sizes.pieces)?);
    if sizes.lines > 0 {
        cases.extend(sessions::of_manual()?);
    }
    cases.extend(sessions::fresh(&mut rng, sizes.sessions, sizes.calls));
    let sessions = features::sessions(&mut rng, sizes.chosen, sizes.calls);
    cases.extend(sessions::chosen(&sessions));
    cases.extend(sessions::damaged(&mut rng, sizes.damaged));
    cases.extend(tables::conformance(sizes.tables)?);
    cases.extend(tables::single(&mut rng, sizes.single));
    cases.extend(states::states(&mut rng, sizes.states));
    cases.extend(full::full().into_iter().take(sizes.full));
    cases.extend(altered::altered(&mut rng, sizes.altered));
    cases.extend(words::words(&mut rng, sizes.words)?);
    cases.extend(histories::histories(
        &sessions,
        sizes.lines,
        sizes.histories,
    )?);
    cases.extend(lent::lent(&mut rng, sizes.lent));
    cases.extend(pages::pages(&mut rng, sizes.pages)?);
    cases.extend(joins::joins(&mut rng, sizes.joins)?);
    Ok(cases)
}
