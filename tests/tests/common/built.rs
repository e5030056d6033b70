//! Built tables: ends lent on through many hands, over ports of which some
//! come from what a request lent; subdirectories lent on; and cascades.

use kernel::plain::closing_tables::*;
use model::limits::{REQUESTS, ROWS};
use model::random::Rng;
use model::tables::{Place, Row};
use model::Tables;

/// Processes 1 to 3 lend ends among each other. Process 4 has lent operations
/// to process 1, which has lent them on to 2 and 3.
struct Hands {
    tables: Tables,
    /// The operations of process p, of each manager: held, and lent to it.
    held: Vec<Vec<u32>>,
    lent: Vec<Vec<u32>>,
    ends: Vec<u32>,
}

const OPENING: &str = "(node 1 (op 1 0 7) (op 2 0 7) (op 3 0 7))\n\
    (process 1 1)\n(process 2 1)\n(process 3 1)\n(process 4 1)\n(open)\n";

impl Hands {
    /// So many ends to lend, all with process 1.
    fn new(ends: usize) -> Hands {
        let mut tables = opened(OPENING);
        let mut hold = |p: u32| {
            let line = |row: u32| format!("({p} hold {row})");
            [1, 2, 3]
                .map(|row| number(&mut tables, &line(row)))
                .to_vec()
        };
        let held: Vec<Vec<u32>> = [1, 2, 3, 4].map(&mut hold).to_vec();
        let lent = lend(&mut tables, 4, held[3][0], 1, &held[3])[1..].to_vec();
        let mut on = |p: u32| lend(&mut tables, 1, lent[p as usize - 1], p, &lent);
        let (to_2, to_3) = (on(2)[1..].to_vec(), on(3)[1..].to_vec());
        let port = format!("(1 port {})", held[0][0]);
        let ends = (0..ends).map(|_| number(&mut tables, &port)).collect();
        Hands {
            lent: vec![lent, to_2, to_3],
            held,
            ends,
            tables,
        }
    }

    /// Who has an end.
    fn holder(&self, end: u32) -> u32 {
        match self.tables.row(end).map(|r: &Row| r.place) {
            Some(Place::CList(p)) => p,
            place => panic!("{place:?}"),
        }
    }

    /// One end goes on, often with others that its holder has, over a port
    /// made from what the holder holds or from what was lent to it.
    fn hand_on(&mut self, rng: &mut Rng) {
        let end = rng.pick(&self.ends).expect("an end");
        let from = self.holder(end);
        let others = self.ends.clone().into_iter();
        let others = others.filter(|e| *e != end && self.holder(*e) == from);
        let mut items: Vec<u32> = others.filter(|_| rng.percent(50)).collect();
        items.insert(rng.below(items.len() + 1), end);
        let to = rng.between(1, 3);
        let operations = match rng.percent(50) {
            true => &self.held,
            false => &self.lent,
        };
        let operation = operations[from as usize - 1][to as usize - 1];
        lend(&mut self.tables, from, operation, to, &items);
    }
}

/// So many ends through so many hands.
fn hands(seed: u64, ends: usize, hands: usize) -> Tables {
    let mut rng = Rng::new(seed);
    let mut built = Hands::new(ends);
    for _ in 0..hands {
        built.hand_on(&mut rng);
    }
    built.tables
}

/// A subdirectory lent from process 1 to 2, from 2 to 3 and so on: each holds
/// an operation in it and is still there.
fn directories(hands: u32) -> Tables {
    let entries: String = (2..11).map(|p| format!(" (op {p} 0 7)")).collect();
    let processes: String = (1..11).map(|p| format!("(process {p} 1)\n")).collect();
    let nodes = format!("(node 1 (dir 2 7){entries})\n(node 2 (op 1 0 7))\n");
    let mut tables = opened(&format!("{nodes}{processes}(open)\n"));
    let mut copies = vec![number(&mut tables, "(1 hold 1)")];
    for (from, to) in (1..=hands).zip(2..) {
        let operation = number(&mut tables, &format!("({from} hold {to})"));
        let items = [copies[copies.len() - 1], operation];
        copies.push(lend(&mut tables, from, operation, to, &items)[1]);
    }
    for (process, copy) in (1..).zip(copies) {
        number(&mut tables, &format!("({process} go {copy})"));
        number(&mut tables, &format!("({process} hold 11)"));
    }
    tables
}

/// All of them; the last are full or nearly.
pub fn built() -> Vec<Tables> {
    let mut all = Vec::new();
    for seed in 0..20 {
        all.push(hands(seed, 1, 3 + seed as usize));
        all.push(hands(seed, 4, 20));
    }
    all.push(hands(20, 1, REQUESTS - 3));
    all.push(filled(hands(21, 4, REQUESTS - 3), ROWS));
    for hands in 1..9 {
        all.push(directories(hands));
    }
    all.push(one_copy_full().0);
    all.push(cascade(3, 4).0);
    all.push(cascade_of_85_full().0);
    all
}
