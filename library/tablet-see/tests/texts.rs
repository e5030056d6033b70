//! Damaged openings and unsound words: what is wrong is found where the model finds it.

use model::limits::ROWS;
use model::opening::read_opening;
use model::random::aimed::aimed;
use model::random::shifted::near_limit;
use model::random::{alter, damage::damage, openings, session, Rng, SMALL};
use model::words::{decode, encode};
use std::collections::BTreeSet;
use tablet_see::ground::ground;
use tablet_see::opening::refused;
use tablet_see::sound::unsound;

#[test]
fn damaged_openings_are_refused_at_the_line_of_the_model() {
    let mut seen = BTreeSet::new();
    for seed in 0..4000 {
        let mut rng = Rng::new(seed);
        let mut text = openings::opening(&mut rng, SMALL[seed as usize % SMALL.len()]);
        if seed % 8 != 0 {
            text = damage(&mut rng, &text);
        }
        let given = refused(&text);
        let told = read_opening(&text).err();
        let shown = String::from_utf8_lossy(&text);
        assert_eq!(
            given.as_ref().map(|r| (r.number, r.line)),
            told,
            "seed {seed}: {shown}"
        );
        if let Some(given) = given {
            let lines: Vec<&[u8]> = text.split_inclusive(|&b| b == b'\n').collect();
            let length = lines
                .get(given.line as usize - 1)
                .map_or(0, |line| line.len());
            assert!(
                given.span.from < given.span.to && given.span.to <= length + 1,
                "seed {seed}: {given:?}"
            );
            seen.insert(given.number);
        }
    }
    assert_eq!(seen, BTreeSet::from([2, 3, 4, 5]));
}

#[test]
fn openings_with_too_many_entries() {
    let text = format!("(node 1{})\n(open)\n", " (dir 1 0)".repeat(17));
    let given = refused(text.as_bytes()).expect("refused");
    assert_eq!((given.number, given.line, given.rule), (6, 1, "O15"));
    assert_eq!(read_opening(text.as_bytes()).err(), Some((6, 1)));
}

#[test]
fn damaged_lines_have_a_place() {
    let mut bad = 0;
    for seed in 0..400 {
        let mut rng = Rng::new(seed);
        let input = session(seed, SMALL[seed as usize % SMALL.len()], 20);
        let tables = model::random::tables(seed, SMALL[seed as usize % SMALL.len()], 20);
        let (words, records) = encode(&tables).expect("tables that fit");
        let state = tablet::State::read(&words, &records).expect("words of tables");
        for line in input.split_inclusive(|&b| b == b'\n') {
            let line = damage(&mut rng, line);
            let answer = model::session::call_sound(&mut tables.clone(), &line);
            let given = ground(&state, &line);
            assert_eq!(
                given.as_ref().map(|g| g.number),
                answer.refusal(),
                "{}",
                String::from_utf8_lossy(&line)
            );
            if let Some(span) = given.and_then(|g| g.span) {
                assert!(span.from < span.to && span.to <= line.len() + 1);
                bad += 1;
            }
        }
    }
    assert!(bad > 1000, "{bad}");
}

#[test]
fn unsound_words_have_a_clause() {
    let mut counts = [0, 0];
    let mut rules = BTreeSet::new();
    for seed in 0..6000u64 {
        let mut rng = Rng::new(seed);
        let base = model::random::tables(seed / 20, SMALL[(seed / 20) as usize % SMALL.len()], 25);
        let base = match seed / 20 % 4 {
            0 => near_limit(&base, (seed / 80) as u32 % 4),
            _ => base,
        };
        let clauses = model::sound::CLAUSES;
        let (clause, _) = clauses[seed as usize % clauses.len()];
        let altered = match seed % 3 {
            0 => Some(alter::alter(&mut rng, &base)),
            1 => Some(alter::alter_gently(&mut rng, &base)),
            _ => aimed(&mut rng, &base, clause),
        };
        let Some((mut words, mut records)) = altered.as_ref().and_then(encode) else {
            continue;
        };
        if seed % 7 == 0 {
            let at = rng.below(words.len());
            words[at] = rng.between(0, 250);
        }
        // a number, a port, a source or the like of a slot in use becomes the greatest word
        if seed % 5 == 0 {
            let at = rng.pick(&[0, 2, 6, 7, 9]).expect("a column") * ROWS + rng.below(4);
            words[at] = u32::MAX;
        }
        if seed % 11 == 0 {
            let at = rng.below(12);
            records[at] = rng.between(0, 250);
        }
        let sound = decode(&words, &records).is_some_and(|t| model::sound(&t));
        let fault = unsound(&words, &records);
        assert_eq!(fault.is_none(), sound, "seed {seed}: {fault:?}");
        counts[usize::from(sound)] += 1;
        rules.extend(fault.map(|f| f.rule));
    }
    assert!(counts[0] > 1000 && counts[1] > 500, "{counts:?}");
    assert!(rules.len() >= 20, "{rules:?}");
}

#[test]
fn runs_of_other_lengths() {
    let fault = unsound(&[0; 3], &[0; 192]).expect("unsound");
    assert_eq!(
        (fault.rule, fault.text.as_str()),
        ("W1", "the tables are 3 words, not 11265")
    );
    assert_eq!(unsound(&[0; 11_265], &[]).expect("unsound").rule, "W1");
}
