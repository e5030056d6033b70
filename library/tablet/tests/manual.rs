//! Each refusal's meaning and remedy are the ones of docs/MANUAL.md, chapter 9; the meaning of 20 is that of rule J9.

use std::fs;
use tablet::Refusal;

/// The text without marks of code and without brackets that name rules.
fn plain(text: &str) -> String {
    let text = text.replace('`', "");
    let mut plain = String::new();
    for (at, part) in text.split(" (").enumerate() {
        let names_rules = part.split(')').next().is_some_and(|inside| {
            let first = inside.split(' ').next().unwrap_or_default();
            let first = first.trim_end_matches(',');
            first.starts_with(char::is_uppercase) && first.ends_with(|c: char| c.is_ascii_digit())
        });
        match (at, names_rules, part.split_once(')')) {
            (0, _, _) => plain += part,
            (_, true, Some((_, rest))) => plain += rest,
            _ => plain += &format!(" ({part}"),
        }
    }
    plain + "."
}

fn manual() -> String {
    let manual = concat!(env!("CARGO_MANIFEST_DIR"), "/../../docs/MANUAL.md");
    fs::read_to_string(manual).expect("the manual")
}

#[test]
fn meanings_are_those_of_the_manual() {
    let manual = manual();
    let chapter = manual.split("## 9.").nth(1).expect("chapter 9");
    let chapter = chapter.split("## 10.").next().expect("its end");
    let mut seen = 0;
    for line in chapter.lines() {
        let cells: Vec<&str> = line.split('|').map(str::trim).collect();
        let [_, number, meaning, remedy, _] = cells.as_slice() else {
            continue;
        };
        let Some(refusal) = number.parse().ok().and_then(|k| Refusal::new(k, None)) else {
            continue;
        };
        assert_eq!(refusal.meaning(), plain(meaning));
        assert_eq!(refusal.remedy(), plain(remedy));
        seen += 1;
    }
    assert_eq!(seen, 19);
}

#[test]
fn no_other_refusal_is_known() {
    assert_eq!(Refusal::new(0, None), None);
    assert_eq!(Refusal::new(19, None), None);
    assert_eq!(Refusal::new(21, None), None);
}
