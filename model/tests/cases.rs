//! The cases of cases/, of docs/MANUAL.md and of conformance/, on the model: sessions,
//! tables, and words at its two entry points; pages; joined texts.

use model::cases::{self, run, run_join, Case, Entries, Step};
use model::join::join;
use model::page::{page, session_page, words_page};
use model::session::{call, dump_session};
use model::words::{call_entry, open_entry};
use model::{run_session, Tables};
use std::collections::BTreeSet;
use std::fs;
use std::path::Path;

const MODEL: Entries = Entries {
    open: open_entry,
    call: call_entry,
    page: words_page,
};

fn text(bytes: &[u8]) -> String {
    String::from_utf8_lossy(bytes).into_owned()
}

/// On words: all of them that have words.
#[test]
fn cases_on_words() {
    let cases = cases::all().unwrap();
    let mut steps = 0;
    let mut without = 0;
    for case in &cases {
        match run(case, MODEL) {
            Ok(0) => without += 1,
            Ok(count) => steps += count,
            Err(said) => panic!("{said}"),
        }
    }
    println!(
        "{} cases, {without} without words, {steps} steps",
        cases.len()
    );
    assert!(
        steps >= 29_500 && without == 10,
        "{steps} steps, {without} without words"
    );
}

/// On tables: all whose words are those of tables.
#[test]
fn cases_on_tables() {
    let mut compared = 0;
    for case in &cases::all().unwrap() {
        compared += usize::from(on_tables(case));
        if case.is_session() {
            let (input, output) = case.session();
            assert_eq!(text(&run_session(&input)), text(&output), "{}", case.at);
            told_page(case, &session_page(&input));
            compared += 1;
        }
    }
    assert!(compared >= 1_150, "{compared} compared");
}

/// The calls of a case one after the other on its tables.
fn on_tables(case: &Case) -> bool {
    let Some(start) = case.start.as_ref().filter(|lent| lent.changes.is_empty()) else {
        return false;
    };
    let mut tables = start.tables.clone();
    for step in &case.steps {
        let Step::Call { line, answer } = step else {
            return false;
        };
        let printed = call(&mut tables, line).print();
        assert_eq!(text(&printed), text(answer), "{} {}", case.at, text(line));
    }
    if let Some(after) = &case.after {
        assert_eq!(tables, after.tables, "{}", case.at);
    }
    told_page(case, &page(&tables));
    true
}

/// The page is the one told, where one is.
fn told_page(case: &Case, page: &[u8]) {
    if let Some(told) = &case.page {
        assert_eq!(text(page), text(told), "{}", case.at);
    }
}

/// Joined texts, all of them.
#[test]
fn cases_of_joining() {
    let cases = cases::all_joins().unwrap();
    for case in &cases {
        run_join(case, join).unwrap_or_else(|said| panic!("{said}"));
    }
    assert!(cases.len() >= 127, "{} cases", cases.len());
}

/// The dumps of conformance/: the tables after each call.
#[test]
fn sessions_leave_the_dumped_tables() {
    let directory = Path::new(env!("CARGO_MANIFEST_DIR")).join("conformance/sessions");
    let mut dumps = 0;
    for entry in fs::read_dir(directory).unwrap() {
        let path = entry.unwrap().path();
        if path.extension().is_some_and(|e| e == "dump") {
            let input = fs::read(path.with_extension("session")).unwrap();
            let expected = fs::read_to_string(&path).unwrap();
            assert_eq!(text(&dump_session(&input)), expected, "{path:?}");
            dumps += 1;
        }
    }
    assert_eq!(dumps, 12);
}

/// Names are different, and conformance/ is read whole.
#[test]
fn cases_are_read() {
    let cases = cases::all().unwrap();
    let joins = cases::all_joins().unwrap();
    let names = cases.iter().map(|c| &c.name);
    let names: BTreeSet<&str> = names
        .chain(joins.iter().map(|j| &j.name))
        .map(String::as_str)
        .collect();
    assert_eq!(names.len(), cases.len() + joins.len());
    let of = |part: &str| names.iter().filter(|n| n.starts_with(part)).count();
    assert_eq!(of("conformance/sessions/"), 184);
    assert_eq!(of("conformance/tables/"), 444);
    assert_eq!(of("conformance/pages/"), 26);
    assert_eq!(of("conformance/joins/"), 60);
    let by_hand = cases::by_hand().unwrap();
    assert!(by_hand.len() >= 550, "{} cases", by_hand.len());
    let paged = by_hand.iter().filter(|c| c.page.is_some()).count();
    assert!(paged >= 24, "{paged} pages");
    assert!(by_hand.iter().all(|c| !c.rules.is_empty()));
    let joins = cases::joins_by_hand().unwrap();
    assert!(joins.len() >= 67, "{} cases of joining", joins.len());
    assert!(joins.iter().all(|c| !c.rules.is_empty()));
}

/// A range stands for its numbers; a file that is wrong is refused with its line.
#[test]
fn files_are_read_as_told() {
    let lines = cases::ranges("(1 ask 3..7/2) -> (ok 10..12)").unwrap();
    assert_eq!(lines[1], "(1 ask 5) -> (ok 11)");
    assert_eq!(lines.len(), 3);
    assert!(cases::ranges("1..2 1..3").is_err());
    let read = |text: &str| cases::read_text("file", text, &Default::default());
    let good = "case: a\nrule: K1\n(open) -> (ok 0)\n(1 go 0)[cut] -> (no 2)\n";
    assert_eq!(read(good).unwrap()[0].steps[1].text(), b"(1 go 0)");
    let paged = format!("case: a\nrule: G1\n(open) -> (ok 0)\npage:\n|{:64}|\n", "x");
    let page = read(&paged).unwrap().remove(0).page.unwrap();
    assert_eq!((page.len(), page[64]), (65, b'\n'));
    for bad in [
        "case: a\n(open) -> (ok 0)\n",
        "case: a\nrule: K1\n(open)\n",
        "case: a\nrule: K1\n(1 go 0) -> (no 5)\n",
        "case: a\nrule: K1\nnext 1\n(1 go 0)\n",
        "case: a\nrule: K1\nnxt 1\n(1 go 0) -> (no 5)\n",
        "rule: K1\n(open) -> (ok 0)\n",
        &paged.replace('x', ""),
        &paged.replace('|', ""),
        &(paged.clone() + "next 1\n"),
    ] {
        assert!(read(bad).is_err(), "{bad}");
    }
}

/// The texts of a case of joining are those lines; a file that is wrong is refused.
#[test]
fn joins_are_read_as_told() {
    let read = |text: &str| cases::read_joins("file", text);
    let good = "case: a\nrule: J1, J2\ntexts:\n(node 1..2) | x\\x09 ; a remark\n(open)[cut]\njoined:\n(no 2 3)\n";
    let join = read(good).unwrap().remove(0);
    assert_eq!(join.texts, b"(node 1)\n(node 2)\nx\t\n(open)");
    assert_eq!(join.joined, b"(no 2 3)\n");
    assert_eq!((join.at.as_str(), join.rules.len()), ("file:1", 2));
    let cases = cases::read_text("file", good, &Default::default());
    assert!(cases.unwrap().is_empty());
    let empty = read("case: a\nrule: J1\ntexts:\njoined:\n(no 2 1)\n").unwrap();
    assert!(empty[0].texts.is_empty());
    for bad in [
        good.replace("case: ", ""),
        good.replace("rule: J1, J2\n", ""),
        good.replace("joined:\n", ""),
        good.replace("(no 2 3)\n", ""),
        good.replace("\\x09", "\\xzz"),
        good.replace("rule:", "after:\nrule:"),
    ] {
        assert!(read(&bad).is_err(), "{bad}");
    }
    assert!(run_join(&join, model::join::join).is_ok());
    assert!(run_join(&join, |_| b"(no 2 2)\n".to_vec()).is_err());
}

/// The runner can fail: another answer, other words, words that a refused call changed, another page.
#[test]
fn a_wrong_kernel_is_found() {
    let case = |text: &str| {
        cases::read_text("file", text, &Default::default())
            .unwrap()
            .remove(0)
    };
    let refused = case("case: a\nrule: K5\nnext 1\n(1 go 0) -> (no 5)\n");
    let opened = case("case: a\nrule: K6\n(open) -> (ok 0)\nafter:\nnext 1\n");
    let writes: Entries = Entries {
        open: |tables, records, text| {
            let answer = open_entry(tables, records, text);
            tables[7] = 1;
            answer
        },
        call: |tables, _, _| {
            tables[7] = 1;
            b"(no 5)\n".to_vec()
        },
        page: words_page,
    };
    assert!(run(&refused, MODEL).is_ok() && run(&opened, MODEL).is_ok());
    assert!(run(&refused, writes).is_err() && run(&opened, writes).is_err());
    let other = case("case: a\nrule: K5\nnext 1\n(1 go 0) -> (no 4)\n");
    assert!(run(&other, MODEL).is_err());
    let paged = case("case: a\nrule: G1\n(open) -> (ok 0)\npage:\n");
    let pages = |page| Entries { page, ..MODEL };
    assert!(run(&paged, MODEL).is_ok());
    assert!(run(&paged, pages(|_| b"\n".to_vec())).is_err());
    assert!(run(&opened, pages(|_| b"\n".to_vec())).is_err());
    assert_eq!(Tables::empty().next, 1);
}
