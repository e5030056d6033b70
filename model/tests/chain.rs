//! The call `chain`: its forms, its refusals, the chain of each kind of row, and what holds of every
//! chain on sound tables that no session made.

mod common;

use common::after;
use model::random::{sound_state_of, Rng, SMALL_SHAPES};
use model::session::call;
use model::tables::{Row, Tables};
use model::Answer;

/// The rows of a session that has each kind, with their sources.
/// Text: 1 an operation of 2, 2 subdirectory 2, both in node 1; 3 subdirectory 1 in node 2.
/// 1 holds 4 (of 2), goes there, holds 5 (of 3, through 4), goes through it, holds 6 (of 1, through
/// 5), registers it as 7 (of 1, beside 6), holds that as 8 (of 7, through 5), makes port 9 and 10 of 6
/// and lends copies 12 (of 8) and 13 (of 5) by request 11. 2 makes port 14 and 15 of 12.
const OFFICE: &str =
    "(node 1 (op 2 1 7) (dir 2 7))|(node 2 (dir 1 7))|(process 1 1)|(process 2 1)|\
    (open)|(1 hold 2)|(1 go 4)|(1 hold 3)|(1 go 5)|(1 hold 1)|(1 register 6)|(1 hold 7)|(1 port 6)|\
    (1 ask 9 (8 3) (5 1))|(2 fetch 10)|(2 port 12)";

/// Each row of the office with its chain.
const CHAINS: [(u32, &[u32]); 14] = [
    (1, &[1]),
    (2, &[2]),
    (3, &[3]),
    (4, &[2, 4]),
    (5, &[3, 5]),
    (6, &[1, 6]),
    (7, &[1, 7]),
    (8, &[1, 7, 8]),
    (9, &[1, 6, 9]),
    (10, &[1, 6, 10]),
    (12, &[1, 7, 8, 12]),
    (13, &[3, 5, 13]),
    (14, &[1, 7, 8, 12, 14]),
    (15, &[1, 7, 8, 12, 15]),
];

/// What a line is answered; the tables stay as they were.
fn said(tables: &Tables, line: &str) -> Answer {
    let mut after = tables.clone();
    let answer = call(&mut after, format!("{line}\n").as_bytes());
    assert_eq!(after, *tables, "{line}");
    answer
}

fn chain(tables: &Tables, row: u32) -> Answer {
    said(tables, &format!("(chain {row})"))
}

/// The row stands, so that no other refusal hides a form that is read.
#[test]
fn forms() {
    let tables = after(OFFICE);
    assert!(chain(&tables, 6).accepted());
    let bad = "(1 chain 6)|(65 chain 6)|(0 chain 6)|(chain)|(chain )|(1 chain)|(chain 6 6)|\
        (chain 6 11)|(chain 6 0)|(chain (6))|(chain (6 0))|(chain 6 (6))|(chain 6 ())|((chain 6))|\
        (chain 06)|(chain 00)|(chain +6)|(chain -6)|(chain 6.)|(chain x)|(chain  6)|(chain 6 )|\
        ( chain 6)|(chain 6) | (chain 6)|(chain\t6)|(chain 6)\r|(chain 6))|(chain 6|chain 6)|chain 6|\
        (Chain 6)|(CHAIN 6)|(chains 6)|(chai 6)|(hain 6)|(chain6)|(6 chain)|(6)|(chain 6)6|(comes 6)";
    for line in bad.split('|') {
        assert_eq!(said(&tables, line), Answer::No(2), "{line}");
    }
    let out_of_range = "0|4294967295|4294967296|4294967302|8589934598|18446744073709551616|\
        18446744073709551622|340282366920938463463374607431768211462";
    for number in out_of_range.split('|') {
        let line = format!("(chain {number})");
        assert_eq!(said(&tables, &line), Answer::No(3), "{line}");
    }
}

/// 7 is of no row: a number never given, a request's, one given to a row that is gone.
#[test]
fn missing_rows() {
    let tables = after(OFFICE);
    for number in [11, 16, 17, 1_000_000, 2_147_483_654, 4_294_967_294] {
        assert_eq!(chain(&tables, number), Answer::No(7), "{number}");
    }
    let revoked = after(&format!("{OFFICE}|(1 revoke 11)|(1 drop 8)"));
    for (number, numbers) in CHAINS {
        let expected = match number {
            8 | 12..=15 => Answer::No(7),
            _ => Answer::Ok(numbers.to_vec()),
        };
        assert_eq!(chain(&revoked, number), expected, "{number}");
    }
}

/// Without an opening there is no row and no process, and no 5 either.
#[test]
fn empty_tables() {
    let tables = Tables::empty();
    assert_eq!(said(&tables, "(1 go 0)"), Answer::No(5));
    assert_eq!(chain(&tables, 1), Answer::No(7));
    assert_eq!(chain(&tables, 0), Answer::No(3));
}

#[test]
fn each_kind_of_row() {
    let tables = after(OFFICE);
    assert_eq!(tables.rows.len(), CHAINS.len());
    for (number, numbers) in CHAINS {
        let answer = chain(&tables, number);
        assert_eq!(answer, Answer::Ok(numbers.to_vec()), "{number}");
    }
}

/// On sound tables of any kind: the chain of a row of the text is that row, the chain of any other
/// row is that of its first source and then the row. It has at most as many rows as the row is deep;
/// kind, object and rights go down it as P14 says; ends have none of them.
#[test]
fn chains_of_sound_tables() {
    let mut rng = Rng::new(107);
    let (mut lengths, mut shorter) = ([0; 13], 0);
    for _ in 0..6_000 {
        let shape = rng.pick(&SMALL_SHAPES).unwrap();
        let tables = sound_state_of(&mut rng, shape);
        for row in &tables.rows {
            let numbers = numbers(&tables, row.number);
            let mut expected = match row.source {
                0 => Vec::new(),
                source => self::numbers(&tables, source),
            };
            expected.push(row.number);
            assert_eq!(numbers, expected, "{}", tables.print());
            assert!(numbers.len() <= row.depth as usize, "{}", tables.print());
            let pairs = numbers.windows(2);
            pairs.for_each(|pair| assert_pair(&tables, pair));
            lengths[numbers.len()] += 1;
            shorter += u32::from(numbers.len() < row.depth as usize);
        }
    }
    for (length, seen) in lengths.iter().enumerate().skip(1) {
        assert!(*seen >= 20, "{length}: seen {seen} times");
    }
    assert!(shorter >= 1_000, "{shorter} shorter than the depth");
}

/// The chain of a row that stands.
fn numbers(tables: &Tables, row: u32) -> Vec<u32> {
    match chain(tables, row) {
        Answer::Ok(numbers) => numbers,
        refused => panic!("chain {row}: {refused:?} on {}", tables.print()),
    }
}

/// A row and the next one of a chain: the next one is younger and no row gains rights; a copy has
/// kind and object of its row.
fn assert_pair(tables: &Tables, pair: &[u32]) {
    let rows: Vec<&Row> = pair.iter().filter_map(|n| tables.row(*n)).collect();
    let [source, next] = rows[..] else {
        panic!("{pair:?} on {}", tables.print());
    };
    assert!(source.number < next.number && source.depth < next.depth);
    assert!(!source.is_end() && source.permits(next.rights));
    let thing = |r: &Row| (r.kind, r.object, r.operation);
    assert!(next.is_end() || thing(source) == thing(next), "{pair:?}");
}
