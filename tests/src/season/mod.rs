//! A season: one long run of calls through one set of tables, opened once, given to the entry
//! points and to the model. Every reply is compared. Every word of both runs is compared after
//! each 8th call, after each call of 64 in 256, and after each call near the last number.

mod both;
mod difference;
mod report;
mod waves;

pub use both::Points;
pub use difference::Difference;
pub use report::Report;

use both::Both;
use model::random::shifted::room;
use waves::Waves;

const OPENING: &[u8] = b"\
(node 1 (op 2 5 7) (op 3 1 7) (op 4 0 7) (dir 2 7) (dir 3 7))
(node 2 (op 1 1 7) (op 3 2 3) (op 5 255 7) (dir 1 7) (dir 4 3))
(node 3 (op 2 2 7) (op 6 3 7) (dir 4 7) (dir 2 1))
(node 4 (op 1 0 7) (op 4 4 5) (op 6 9 7) (dir 3 7))
(process 1 1)
(process 2 1)
(process 3 2)
(process 4 2)
(process 5 3)
(process 6 4)
(open)
";

/// The words are compared once in so many calls, and after each call of one part in four.
const WORDS: u64 = 8;
const PART: u64 = 64;
const PARTS: u64 = 4;

/// The model tests soundness once in so many calls.
const SOUND: u64 = 4_096;

/// The rows in nodes, which no call removes, grow to these over the run.
const IN_NODES: u64 = 200;

/// For so many calls of the first part one number is left to the second, which about two calls
/// take; and for so many there is one call after the last number.
const LEFT: u64 = 20;
const AFTER: u64 = 100;

/// A season of so many calls; and a second part, for which all numbers are moved up: it goes on
/// until the last one is given, and then for some calls more.
pub fn season(points: Points, calls: u64, seed: u64) -> Result<[Report; 2], Difference> {
    let mut season = Season {
        both: Both::opened(points, OPENING)?,
        waves: Waves::new(seed),
        calls,
        made: 0,
        report: Report::default(),
    };
    for at in 1..=calls {
        season.step(at == calls)?;
    }
    let first = std::mem::take(&mut season.report);
    let left = u32::try_from(calls / LEFT).expect("numbers to be left");
    season.both.leave(left);
    while room(&season.both.tables) > 0 {
        season.step(true)?;
    }
    for _ in 0..calls / AFTER {
        season.step(true)?;
    }
    Ok([first, season.report])
}

/// A season under way.
struct Season {
    both: Both,
    waves: Waves,
    /// The calls of the first part, and those made in both.
    calls: u64,
    made: u64,
    report: Report,
}

impl Season {
    /// One more call. The words are compared if it is their turn, or if so wanted.
    fn step(&mut self, words: bool) -> Result<(), Difference> {
        self.made += 1;
        let turn = self.made / PART % PARTS == 0 || self.made % WORDS == 0;
        self.call(words || turn)
            .map_err(|difference| difference.at(self.made))
    }

    fn call(&mut self, words: bool) -> Result<(), Difference> {
        let in_nodes = (self.made * IN_NODES / self.calls).min(IN_NODES);
        let line = self.waves.line(&self.both.tables, in_nodes as usize);
        let answer = self.both.call(&line)?;
        if words {
            self.both.words_agree(&line)?;
            self.report.compared += 1;
        }
        if self.made % SOUND == 0 {
            self.both.is_sound(&line)?;
        }
        self.report.count(&line, &answer, &self.both.tables);
        Ok(())
    }
}
