//! Random pairs of opening texts, one after the other, as `join` reads them.

pub mod flaws;
pub mod largest;
pub mod related;

pub use flaws::{all_flaws, refused, Flaw, Refused, FLAWS};
pub use largest::{largest, Share, LONGEST, SHARES};
pub use related::{related, Pair, Size, SIZES};

use super::damage::damage;
use super::prng::Rng;
use crate::limits::ENTRIES;
use crate::opening::gives_the_same;

/// Any pair of a seed: texts that are joined, refused, damaged, cut off, or have bytes after them; a
/// few of the largest.
pub fn pair(seed: u64) -> Vec<u8> {
    let mut rng = Rng::new(seed);
    let size = SIZES[rng.weighted(&[50, 40, 10])];
    match rng.pick(&SHARES) {
        Some(share) if rng.percent(3) => largest(&mut rng, share).print(),
        _ => pair_of(&mut rng, size),
    }
}

/// A pair of this size.
pub fn pair_of(rng: &mut Rng, size: Size) -> Vec<u8> {
    let joined = related(rng, size).print();
    match rng.weighted(&[30, 10, 8, 22, 15, 8, 7]) {
        0 => joined,
        1 => full(rng, size),
        2 => alike(rng, size),
        3 => some_refused(rng, size).input,
        4 => damage(rng, &joined),
        5 => joined[..rng.below(joined.len())].to_vec(),
        _ => followed(rng, joined),
    }
}

/// Texts with one flaw or more, each sort of refusal as often as any.
fn some_refused(rng: &mut Rng, size: Size) -> Refused {
    let mut flaws: Vec<Flaw> = Vec::new();
    for _ in 0..rng.between(1, 3) {
        let rank = rng.below(5);
        let of_rank = FLAWS.into_iter().filter(|flaw| flaw.rank() == rank);
        flaws.retain(|flaw| flaw.rank() != rank);
        flaws.extend(rng.pick(&of_rank.collect::<Vec<_>>()));
    }
    refused(rng, size, &flaws)
}

/// A joined node has as many entries as it may have.
pub fn full(rng: &mut Rng, size: Size) -> Vec<u8> {
    let mut pair = related(rng, size);
    flaws::crowd(rng, &mut pair, ENTRIES);
    pair.print()
}

/// Both texts are one, or one of them is `(open)` alone, or both are.
pub fn alike(rng: &mut Rng, size: Size) -> Vec<u8> {
    let whole = related(rng, size);
    // All that either text gives, so that this text by itself lists what it names.
    let [mut one, other] = whole.texts.clone();
    for form in other {
        if !one.iter().any(|given| gives_the_same(given, &form)) {
            one.push(form);
        }
    }
    let texts = match rng.below(4) {
        0 => [one, Vec::new()],
        1 => [Vec::new(), one],
        2 if rng.percent(20) => Default::default(),
        _ => [one.clone(), one],
    };
    Pair { texts, ..whole }.print()
}

/// What follows the second `(open)` is not read.
fn followed(rng: &mut Rng, mut joined: Vec<u8>) -> Vec<u8> {
    let after: [&[u8]; 6] = [
        b"x",
        b"\n",
        b"(open)\n",
        b"(node 33)\n(open)\n",
        b"(1 hold 1)\n",
        b"\x00\xff\n\n",
    ];
    joined.extend(rng.pick(&after).unwrap_or(b"x"));
    joined
}
