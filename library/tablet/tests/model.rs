//! The wrapper beside the independent model: answers, words, states, saved bytes, unsound words.

use model::answer::Answer;
use model::call::{Call, Pair};
use model::compare::full::with_rows;
use model::limits::LAST_NUMBER;
use model::random::pairs::comesall;
use model::random::shifted::near_limit;
use model::random::{alter, session, Rng, SMALL};
use model::relations::first_chain;
use model::session::{call_sound, Session};
use model::tables::Kind as ModelKind;
use model::words::{decode, encode};
use std::collections::{BTreeMap, BTreeSet};
use tablet::layout::{LINE_BYTES, MOST_PAIRS, NEXT_AT, PAGE_LINE_BYTES, ROWS};
use tablet::{Kind, LoadError, Place, State, Tables, Words};

/// The opening text at the front of a session, through the line `(open)`.
fn opening(input: &[u8]) -> &[u8] {
    let end = b"\n(open)\n";
    let at = input.windows(end.len()).position(|w| w == end);
    &input[..at.expect("an opening") + end.len()]
}

fn words_of(tables: &model::Tables) -> Words {
    let (tables, processes) = encode(tables).expect("tables of a session fit");
    Words { tables, processes }
}

/// A state holds what the model's tables hold.
fn same(state: &State, tables: &model::Tables) -> bool {
    let rows = state.rows.iter().zip(&tables.rows).all(|(a, b)| {
        let kind = match b.kind {
            ModelKind::Operation => Kind::Operation,
            ModelKind::Subdirectory => Kind::Subdirectory,
            ModelKind::Client => Kind::Client,
            ModelKind::Server => Kind::Server,
        };
        let place = match b.place {
            model::tables::Place::Node(n) => Place::Node(n),
            model::tables::Place::CList(p) => Place::CList(p),
            model::tables::Place::System => Place::System,
        };
        let numbers = (
            a.number,
            a.object,
            a.operation,
            a.rights,
            a.sources,
            a.depth,
            a.bears,
        );
        (a.kind, a.place) == (kind, place)
            && numbers
                == (
                    b.number,
                    b.object,
                    b.operation,
                    b.rights,
                    [b.source, b.via],
                    b.depth,
                    b.request,
                )
    });
    let requests = state.requests.iter().zip(&tables.requests).all(|(a, b)| {
        let items = b.items.map(|item| item.unwrap_or(0));
        (a.number, a.port, a.asker, a.fetched, a.items)
            == (b.number, b.port, b.asker, b.fetched, items)
    });
    let records = state.processes.iter().zip(&tables.processes);
    let records = records
        .into_iter()
        .all(|(a, b)| (a.prime, a.active, a.through) == (b.prime, b.active, b.through));
    let counts = (state.rows.len(), state.requests.len(), state.next);
    rows && requests && records && counts == (tables.rows.len(), tables.requests.len(), tables.next)
}

#[test]
fn sessions_are_answered_as_by_the_model() {
    let mut comesalls = 0;
    for seed in 0..20 {
        let profile = SMALL[seed % SMALL.len()];
        let input = session(seed as u64, profile, 60);
        let mut model = Session::begin(&input);
        let mut tables = Tables::open(opening(&input)).expect("an accepted opening");
        while let Some((line, answer)) = model.step() {
            let printed = format!("{}\n", tables.call(line)).into_bytes();
            assert_eq!(
                printed,
                answer.print(),
                "seed {seed}: {}",
                String::from_utf8_lossy(line)
            );
            assert_eq!(tables.words(), words_of(&model.tables), "seed {seed}");
            comesalls += usize::from(answer.accepted() && line.starts_with(b"(comesall "));
        }
        assert!(same(&tables.state(), &model.tables), "seed {seed}");
        let again = Tables::load(&tables.save()).expect("sound tables are loaded");
        assert_eq!(again.words(), tables.words());
    }
    assert!(comesalls >= 20, "{comesalls}");
}

/// (rules chain-7, chain-ok) Of every row, and of a request's number.
#[test]
fn chains_are_those_of_the_model() {
    let mut longest = 0;
    for seed in 0..20 {
        let tables = model::random::tables(seed, SMALL[seed as usize % SMALL.len()], 80);
        let words = words_of(&tables);
        let mut kernel = Tables::from_words(words.clone()).expect("tables of a session");
        for row in &tables.rows {
            let chain = first_chain(&tables, row.number);
            longest = longest.max(chain.len());
            let answer = kernel.call(format!("(chain {})\n", row.number));
            assert_eq!(
                answer.numbers(),
                Some(chain),
                "seed {seed}, row {}",
                row.number
            );
        }
        for request in &tables.requests {
            let answer = kernel.call(format!("(chain {})\n", request.number));
            assert_eq!(answer.to_string(), "(no 7)", "seed {seed}");
        }
        assert_eq!(kernel.words(), words, "seed {seed}");
    }
    assert!(longest >= 6, "{longest}");
}

/// (rule K4) Twelve numbers of ten digits: what was held is registered again and again.
#[test]
fn the_longest_answer_is_a_chain() {
    let opened = Tables::open("(node 1 (op 1 0 7))\n(process 1 1)\n(open)\n").expect("opened");
    let mut words = opened.words();
    let first: u32 = 4_294_967_272;
    words.tables[0] = first;
    words.tables[NEXT_AT] = first + 1;
    let mut tables = Tables::from_words(words).expect("sound words");
    let chain: Vec<u32> = (first..).step_by(2).take(12).collect();
    for row in &chain[..11] {
        assert_eq!(
            tables.call(format!("(1 hold {row})\n")).number(),
            Some(row + 1)
        );
        let registered = tables.call(format!("(1 register {})\n", row + 1));
        assert_eq!(registered.number(), Some(row + 2));
    }
    let answer = tables.call("(chain 4294967294)\n");
    assert_eq!(answer.numbers(), Some(chain));
    assert_eq!(format!("{answer}\n").len(), 137);
}

/// The value of each pair, or the refusal.
fn told(tables: &mut Tables, pairs: &[(u32, u32)]) -> Result<Vec<Option<bool>>, u32> {
    tables.comesall(pairs).map_err(|no| no.number())
}

/// (rules comesall-ok-1, comesall-ok-2, comesall-ok-3, F4, F7) Random pairs, by the method and as a line: the values, or
/// the refusal; and nothing changes.
#[test]
fn comesalls_are_those_of_the_model() {
    let (mut values, mut refusals) = (BTreeMap::new(), BTreeSet::new());
    for seed in 0..30 {
        let tables = model::random::tables(seed, SMALL[seed as usize % SMALL.len()], 80);
        let words = words_of(&tables);
        let mut kernel = Tables::from_words(words.clone()).expect("tables of a session");
        let mut rng = Rng::new(seed);
        for _ in 0..40 {
            let call = comesall(&mut rng, &tables, seed % 3 == 0);
            let (line, pairs) = (call.print(), call.pairs().iter());
            let answer = call_sound(&mut tables.clone(), &line);
            let expected = match &answer {
                Answer::Values(values) => Ok(values.clone()),
                no => Err(no.refusal().expect("refused")),
            };
            let pairs: Vec<(u32, u32)> = pairs.map(|p| (p.row, p.request)).collect();
            let told = told(&mut kernel, &pairs);
            assert_eq!(told, expected, "{}", String::from_utf8_lossy(&line));
            let printed = format!("{}\n", kernel.call(&line)).into_bytes();
            assert_eq!(printed, answer.print());
            for value in told.iter().flatten() {
                *values.entry(*value).or_insert(0) += 1;
            }
            refusals.extend(answer.refusal());
        }
        assert_eq!(kernel.words(), words, "seed {seed}");
    }
    assert!(
        values.len() == 3 && values.values().all(|n| *n > 100),
        "{values:?}"
    );
    assert_eq!(refusals, BTreeSet::from([2, 3, 6]));
}

/// (rules K4, T1, X15) The most that a line has room for: 16 pairs in 255 bytes, answered in 37; ten pairs of ten digits.
#[test]
fn the_longest_comesall() {
    let mut tables = Tables::open("(open)\n").expect("opened");
    let mut pairs = [(100_000, 10_000); MOST_PAIRS];
    pairs[7] = (1_000_000_000, 100_000);
    let line = Call::ComesAll {
        pairs: pairs.map(|(row, request)| Pair { row, request }).to_vec(),
    };
    assert_eq!(line.print().len(), LINE_BYTES + 1);
    assert_eq!(format!("{}\n", tables.call(line.print())).len(), 37);
    assert_eq!(told(&mut tables, &pairs), Ok(vec![None; MOST_PAIRS]));
    pairs[7] = (1_000_000_000, 1_000_000);
    assert_eq!(told(&mut tables, &pairs), Err(2));
    let last = [(LAST_NUMBER, LAST_NUMBER); 11];
    assert_eq!(told(&mut tables, &last[1..]), Ok(vec![None; 10]));
    assert_eq!(told(&mut tables, &last), Err(2));
}

/// (rules G2, G3, G4) The page of random sessions, of full tables with the last numbers, and of none.
#[test]
fn pages_are_those_of_the_model() {
    let random = (0..40).map(|seed| model::random::tables(seed, SMALL[seed as usize % 4], 80));
    let full = [with_rows(ROWS), model::Tables::empty()];
    let mut lines = 0;
    for tables in random.chain(full) {
        for tables in [near_limit(&tables, 0), tables] {
            let words = words_of(&tables);
            let kernel = Tables::from_words(words.clone()).expect("sound tables");
            let page = kernel.page();
            assert_eq!(page.as_bytes(), model::page::page(&tables));
            assert_eq!(page.len(), tables.rows.len() * PAGE_LINE_BYTES);
            assert_eq!(kernel.words(), words);
            lines += tables.rows.len();
        }
    }
    assert!(lines >= 2 * ROWS + 800, "{lines}");
}

#[test]
fn words_are_taken_if_they_are_sound() {
    let mut counts = [0, 0];
    for seed in 0..200 {
        let mut rng = Rng::new(seed);
        let base = model::random::tables(seed, SMALL[seed as usize % SMALL.len()], 30);
        let altered = alter::alter(&mut rng, &base);
        let Some((tables, processes)) = encode(&altered) else {
            continue;
        };
        let words = Words { tables, processes };
        let read = decode(&words.tables, &words.processes);
        let sound = read.as_ref().is_some_and(model::sound);
        counts[usize::from(sound)] += 1;
        let bytes = words.to_bytes();
        assert_eq!(Words::from_bytes(&bytes), Ok(words.clone()));
        match Tables::load(&bytes) {
            Ok(loaded) => assert!(sound && loaded.words() == words, "seed {seed}"),
            Err(error) => assert!(!sound && error == LoadError::Unsound, "seed {seed}"),
        }
        let (mut tables, mut processes) = (words.tables.clone(), words.processes.clone());
        assert_eq!(Tables::borrow(&mut tables, &mut processes).is_ok(), sound);
        assert_eq!((&tables, &processes), (&words.tables, &words.processes));
        match (State::read(&words.tables, &words.processes), read) {
            (Some(state), Some(model)) => assert!(same(&state, &model), "seed {seed}"),
            (state, model) => assert_eq!(state.is_none(), model.is_none(), "seed {seed}"),
        }
    }
    assert!(counts[0] > 40 && counts[1] > 20, "{counts:?}");
}

#[test]
fn other_bytes_are_not_loaded() {
    let saved = Tables::open("(open)\n").expect("an opening").save();
    let error = |bytes: &[u8]| Words::from_bytes(bytes).expect_err("not loaded");
    assert_eq!(error(b""), LoadError::NotSaved);
    assert_eq!(error(&saved[1..]), LoadError::NotSaved);
    assert_eq!(error(b"(tablet 2)\n"), LoadError::Version(2));
    assert_eq!(error(&saved[..saved.len() - 1]), LoadError::Length(45_838));
    assert_eq!(error(b"(tablet 1)"), LoadError::NotSaved);
    assert!(error(&saved[..20]).to_string().contains("45839"));
}

#[test]
fn runs_of_other_lengths_are_refused() {
    for (tables, processes) in [
        (0, 0),
        (11_264, 192),
        (11_266, 192),
        (11_265, 191),
        (11_265, 193),
    ] {
        let (mut tables, mut processes) = (vec![5; tables], vec![5; processes]);
        let refusal =
            Tables::open_in(&mut tables, &mut processes, "(open)\n").expect_err("refused");
        assert_eq!(refusal.to_string(), "(no 1 0)");
        let refusal = Tables::borrow(&mut tables, &mut processes).expect_err("refused");
        assert_eq!(refusal.to_string(), "(no 1)");
    }
}

#[test]
fn sizes_are_those_of_the_model() {
    use model::{limits, words};
    use tablet::layout::*;
    assert_eq!(LAYOUT_VERSION, words::LAYOUT_VERSION);
    let sizes = [TABLES_WORDS, PROCESSES_WORDS, ROW_COLUMNS, REQUEST_COLUMNS];
    let models = [
        words::TABLES_WORDS,
        words::PROCESS_WORDS,
        words::ROW_COLUMNS,
        words::REQUEST_COLUMNS,
    ];
    assert_eq!(sizes, models);
    let limits = [
        limits::ROWS,
        limits::REQUESTS,
        limits::ITEMS,
        limits::LINE_BYTES,
        limits::PAIRS,
    ];
    assert_eq!([ROWS, REQUESTS, ITEMS, LINE_BYTES, MOST_PAIRS], limits);
    assert_eq!(
        [PAGE_LINE_BYTES, PAGE_BYTES],
        [model::page::LINE, ROWS * model::page::LINE]
    );
    assert_eq!(PROCESSES, limits::PROCESSES as usize);
    assert_eq!(LAST_NUMBER, limits::LAST_NUMBER);
}

#[test]
fn tables_go_to_another_thread() {
    let mut tables = Tables::open("(node 1 (op 1 0 7))\n(process 1 1)\n(open)\n").expect("opened");
    let there = std::thread::spawn(move || tables.call("(1 hold 1)\n").to_string());
    assert_eq!(there.join().expect("answered"), "(ok 2)");
}
