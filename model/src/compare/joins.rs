//! Two texts joined: of all bytes at once, and of bytes that come in parts.

use super::antt::bytes;
use super::case::{name, same, Case};
use crate::cases::{self, Join};
use crate::join::join;
use crate::random::texts::{all_flaws, largest, pair_of, refused, Flaw, Refused, Size, SHARES};
use crate::random::Rng;

/// The definitions print this of these texts.
fn of_texts(texts: &[u8], printed: &[u8]) -> String {
    same(&format!("join {}", bytes(texts)), &bytes(printed))
}

/// They print this of these parts.
fn of_parts(parts: &[&[u8]], printed: &[u8]) -> String {
    let each = parts.iter().map(|part| bytes(part) + " ∷ ");
    let parts = format!("({}[])", each.collect::<String>());
    same(&format!("printed_on {parts}"), &bytes(printed))
}

fn made(name: String, about: String, claim: String, texts: Vec<u8>, joined: &[u8]) -> Case {
    Case {
        name,
        about,
        claim,
        files: vec![("texts", texts), ("joined", joined.to_vec())],
    }
}

/// The definitions print of these texts what the model prints.
pub fn case(name: String, about: String, texts: Vec<u8>) -> Case {
    let printed = join(&texts);
    made(name, about, of_texts(&texts, &printed), texts, &printed)
}

/// Those of cases/ that pass the test: what they tell is printed, and printed of three parts as well.
pub fn by_hand(test: impl Fn(&Join) -> bool) -> std::io::Result<Vec<Case>> {
    let joins = cases::joins_by_hand()?;
    let chosen = joins.into_iter().enumerate().filter(|(_, case)| test(case));
    let each = chosen.map(|(at, case)| {
        let (first, rest) = case.texts.split_at(case.texts.len() / 3);
        let (second, third) = rest.split_at(rest.len() / 2);
        let claim = [
            of_texts(&case.texts, &case.joined),
            of_parts(&[first, second, b"", third], &case.joined),
        ];
        let about = format!("{} {}", case.at, case.name);
        let claim = claim.join(" && ");
        made(
            name("join-case", at),
            about,
            claim,
            case.texts,
            &case.joined,
        )
    });
    Ok(each.collect())
}

/// The texts of conformance/.
fn conformance() -> std::io::Result<Vec<Case>> {
    let joins = cases::joins_of_conformance()?.into_iter().enumerate();
    let each = joins.map(|(at, case)| {
        let claim = of_texts(&case.texts, &case.joined);
        made(
            name("join-conformance", at),
            case.at,
            claim,
            case.texts,
            &case.joined,
        )
    });
    Ok(each.collect())
}

/// The texts of conformance/, and so many random pairs in turn: any, refused, any in parts, refused.
/// Every sixtieth pair is as large as texts may be.
pub fn joins(rng: &mut Rng, count: usize) -> std::io::Result<Vec<Case>> {
    let mut cases = match count {
        0 => Vec::new(),
        _ => conformance()?,
    };
    let mut flaws = all_flaws();
    rng.shuffle(&mut flaws);
    for at in 0..count {
        let size = [Size::Small, Size::Small, Size::Middle][at % 3];
        cases.push(match at % 4 {
            _ if at % 60 == 59 => large(rng, at),
            0 => {
                let about = format!("two texts, {size:?}");
                case(name("join-pair", at), about, pair_of(rng, size))
            }
            2 => in_parts(rng, at, size),
            _ => with_flaws(rng, at, size, &flaws[at / 2 % flaws.len()]),
        });
    }
    Ok(cases)
}

/// What was planted is what the definitions print.
fn with_flaws(rng: &mut Rng, at: usize, size: Size, flaws: &[Flaw]) -> Case {
    let Refused { input, printed } = refused(rng, size, flaws);
    let about = format!("two texts with {flaws:?}, {size:?}");
    let claim = of_texts(&input, &printed);
    made(name("join-refused", at), about, claim, input, &printed)
}

fn large(rng: &mut Rng, at: usize) -> Case {
    let share = SHARES[at / 60 % SHARES.len()];
    let about = format!("the largest texts, {share:?}");
    case(name("join-largest", at), about, largest(rng, share).print())
}

/// The bytes come in one part to six, some of them empty.
fn in_parts(rng: &mut Rng, at: usize, size: Size) -> Case {
    let input = pair_of(rng, size);
    let printed = join(&input);
    let mut cuts: Vec<usize> = (0..rng.below(6))
        .map(|_| rng.below(input.len() + 1))
        .collect();
    cuts.sort();
    cuts.push(input.len());
    let mut from = 0;
    let parts = cuts.into_iter().map(|cut| {
        let part = &input[from..cut];
        from = cut;
        part
    });
    let parts: Vec<&[u8]> = parts.collect();
    let about = format!("two texts in {} parts, {size:?}", parts.len());
    let claim = of_parts(&parts, &printed);
    made(name("join-parts", at), about, claim, input, &printed)
}
