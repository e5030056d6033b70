//! The lines of a season: those of the model's random sessions, in waves. The rows grow to some
//! number, then fall to a part of it, so that the tables never stay full; profiles change.

use model::call::{read_call, Call, Word};
use model::limits::ROWS;
use model::random::{lines, Profile, Rng, SMALL};
use model::refusals::refusal;
use model::Tables;

/// The rows that a wave adds to those in nodes at most; one in ten fills the tables.
const MOST_ROWS: [usize; 10] = [40, 40, 40, 60, 60, 60, 100, 100, 250, ROWS];

/// A wave ends when these rows have fallen to one in so many.
const FALL: usize = 4;

/// At its most a wave falls with the next call, so many times in 100.
const TURN_PERCENT: u32 = 5;

/// So many of 100 lines that are refused are taken, and where rows fall of `go`, `comes`, `chain`
/// and `comesall`.
const ODD_PERCENT: u32 = 20;

/// The calls after which another profile begins.
const PROFILE_CALLS: u64 = 500;

/// After so many lines that did not fit the next is taken as it is.
const DRAWS: usize = 64;

pub struct Waves {
    rng: Rng,
    profile: Profile,
    most_rows: usize,
    falling: bool,
    drawn: u64,
}

impl Waves {
    pub fn new(seed: u64) -> Waves {
        Waves {
            rng: Rng::new(seed),
            profile: Profile::Loans,
            most_rows: MOST_ROWS[0],
            falling: false,
            drawn: 0,
        }
    }

    /// The next line on these tables. A row in a node stays there for good, so one is added only
    /// while there are fewer than so many.
    pub fn line(&mut self, tables: &Tables, most_in_nodes: usize) -> Vec<u8> {
        if self.drawn % PROFILE_CALLS == 0 {
            self.profile = self.rng.pick(&SMALL).expect("a profile");
        }
        self.drawn += 1;
        let in_nodes = tables.rows.iter().filter(|r| r.in_node()).count();
        self.turn(tables.rows.len(), in_nodes);
        let mut draws = 0;
        loop {
            let line = lines::line(&mut self.rng, self.profile, tables);
            let call = read_call(&line).filter(|call| refusal(tables, call).is_none());
            draws += 1;
            if registers(&call) && in_nodes >= most_in_nodes {
                continue;
            }
            if draws >= DRAWS || self.fits(&call) {
                return line;
            }
        }
    }

    /// Rows rise to the most of the wave, stay there for some calls, then fall.
    fn turn(&mut self, rows: usize, in_nodes: usize) {
        if self.falling && rows - in_nodes <= self.most_rows / FALL {
            self.falling = false;
            self.most_rows = self.rng.pick(&MOST_ROWS).expect("a number");
        }
        let most = (in_nodes + self.most_rows).min(ROWS - 1);
        if rows >= most && self.rng.percent(TURN_PERCENT) {
            self.falling = true;
        }
    }

    /// Most lines that are refused, of which there is no call here, are drawn again; where rows
    /// are to fall, so are those that add some, and most that remove none.
    fn fits(&mut self, accepted: &Option<Call>) -> bool {
        match accepted {
            None => self.rng.percent(ODD_PERCENT),
            Some(_) if !self.falling => true,
            Some(Call::Ask { .. }) => false,
            Some(Call::Answer { .. }) => true,
            Some(Call::Comes { .. } | Call::Chain { .. } | Call::ComesAll { .. }) => {
                self.rng.percent(ODD_PERCENT)
            }
            Some(Call::One { word, .. }) => match word {
                Word::Hold | Word::Register | Word::Port => false,
                Word::Go => self.rng.percent(ODD_PERCENT),
                _ => true,
            },
        }
    }
}

fn registers(call: &Option<Call>) -> bool {
    matches!(
        call,
        Some(Call::One {
            word: Word::Register,
            ..
        })
    )
}
