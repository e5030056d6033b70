//! The first chain of a row: computed, answered by the kernel, told row by row, drawn, and used to tell of a refusal.

mod common;

use common::printed;
use model::random::{session, PROFILES};
use model::session::Session;
use model::words::encode;
use tablet::{Tables, Words};
use tablet_see::relations::first_chain;

/// Row 7 is held from row 4 through row 6, and registered as row 8; 12 is a copy of it, 16 a copy of 12.
const SESSION: &str = "(node 1 (op 2 1 7) (op 3 1 3) (dir 2 7))\n(node 2 (op 3 2 7))\n(process 1 1)\n(process 2 2)\n\
                       (process 3 2)\n(open)\n(1 hold 1)\n(1 hold 3)\n(1 go 6)\n(1 hold 4)\n(1 register 7)\n\
                       (1 port 5)\n(1 ask 9 (7 7))\n(2 fetch 10)\n(2 port 12)\n(2 ask 13 (12 3))\n";

/// What a command prints after that session and more calls.
fn shown(args: &[&str], calls: &str) -> String {
    printed(args, format!("{SESSION}{calls}").as_bytes()).expect("it runs")
}

/// The lines that `explain` prints of the last call.
fn told(calls: &str) -> Vec<String> {
    let text = shown(&["explain"], calls);
    let (_, last) = text.rsplit_once(" -> ").expect("an answer");
    last.lines().map(|line| line.trim().to_string()).collect()
}

/// (rule R15) What this program computes, what the kernel answers and what the model has are equal, for every row.
#[test]
fn chains_are_the_kernels_and_the_models() {
    let (mut chains, mut longest) = (0, 0);
    for (profile, seed) in PROFILES.into_iter().cycle().zip(0..24) {
        let input = session(seed, profile, 120);
        let mut model = Session::begin(&input);
        while model.step().is_some() {}
        let (tables, processes) = encode(&model.tables).expect("tables that fit");
        let mut kernel = Tables::from_words(Words { tables, processes }).expect("sound words");
        let state = kernel.state();
        for row in &state.rows {
            let chain: Vec<u32> = first_chain(&state, row.number)
                .iter()
                .map(|r| r.number)
                .collect();
            let modelled = model::relations::first_chain(&model.tables, row.number);
            assert_eq!(chain, modelled, "seed {seed}, row {}", row.number);
            longest = longest.max(chain.len());
            let answer = kernel.call(format!("(chain {})\n", row.number));
            assert_eq!(
                answer.numbers(),
                Some(chain),
                "seed {seed}, row {}",
                row.number
            );
            chains += 1;
        }
    }
    assert!(chains > 500 && longest > 6, "{chains} {longest}");
}

#[test]
fn each_row_of_a_chain_is_told() {
    let all = "operation 2 of manager 3, rights 7 (hold, transfer, register)";
    let text = format!("Row 4, in node 2: {all}, of the text.");
    let held = format!("Row 7, in the c-list of process 1: {all}, held from row 4, through row 6.");
    let lent = format!(
        "Row 12, in the c-list of process 2: {all}, lent by process 1 to process 2 in request 11; a copy of row 7."
    );
    let again = "Row 16, with the system: operation 2 of manager 3, rights 3 (hold, transfer), \
                 lent by process 2 to process 3 in request 15, not fetched yet; a copy of row 12.";
    assert_eq!(
        told("(chain 16)\n"),
        ["(ok 4 7 12 16)", &text, &held, &lent, again]
    );
    let end = "Row 14, in the c-list of process 3: server end of port 13, made from row 12.";
    assert_eq!(
        told("(chain 14)\n"),
        ["(ok 4 7 12 14)", &text, &held, &lent, end]
    );
    let registered = format!("Row 8, in node 2: {all}, registered; its source is row 4.");
    assert_eq!(told("(chain 8)\n"), ["(ok 4 8)", &text, &registered]);
    let tried = shown(&["what-if", "(chain 4)"], "");
    assert_eq!(
        tried,
        format!("(chain 4) -> (ok 4)\n    {text}\nNothing would change.\n")
    );
}

#[test]
fn no_chain_is_told_with_its_ground() {
    let ground = |calls: &str| told(calls)[1].clone();
    assert_eq!(
        ground("(chain 15)\n"),
        "Refusal 7, rule chain-7: 15 is a request, not a row."
    );
    assert_eq!(
        ground("(chain 17)\n"),
        "Refusal 7, rule chain-7: no row 17 stands: the number is not given yet."
    );
    assert_eq!(
        ground("(1 revoke 11)\n(chain 16)\n"),
        "Refusal 7, rule chain-7: no row 16 stands: it has gone, by call 11."
    );
}

/// (rule P14) On a first chain a right is lost in the text or where a row was lent.
#[test]
fn a_missing_right_is_told_with_where_it_was_lost() {
    let ground = |calls: &str| told(calls)[1].clone();
    let lacks = "has rights 3 (hold, transfer), without register";
    assert_eq!(
        ground("(3 fetch 14)\n(3 register 16)\n"),
        format!("Refusal 9, rule register-9: row 16 {lacks}: so it was lent by process 2 to process 3 in request 15.")
    );
    assert_eq!(
        ground("(1 go 0)\n(1 hold 2)\n(1 register 17)\n"),
        format!("Refusal 9, rule register-9: row 17 {lacks}: so row 2 stands in the text.")
    );
    let lent_on = "(3 fetch 14)\n(3 port 16)\n(3 ask 17 (16 1))\n(3 fetch 18)\n(3 register 20)\n";
    assert_eq!(
        ground(lent_on),
        "Refusal 9, rule register-9: row 20 has rights 1 (hold), without register: \
         so row 16 was lent by process 2 to process 3 in request 15."
    );
}

#[test]
fn a_lent_row_is_told_with_what_it_is_a_copy_of() {
    assert_eq!(
        told("(2 register 12)\n")[1],
        "Refusal 12, rule register-12: row 12 is lent: \
         row 12 is a copy of row 7, lent by process 1 to process 2 in request 11."
    );
}

/// The cards and the arrows to first sources, and nothing else.
#[test]
fn draw_marks_the_first_chain() {
    let marked = |svg: &str, class: &str| svg.matches(&format!("{class} marked\"")).count();
    let svg = shown(&["draw", "--row", "16"], "");
    assert_eq!(svg.matches(" marked\"><title>").count(), 4, "{svg}");
    for row in [4, 7, 12, 16] {
        assert!(
            svg.contains(&format!(" marked\"><title>row {row}: ")),
            "{svg}"
        );
    }
    assert_eq!(marked(&svg, "source first"), 3);
    assert_eq!(marked(&svg, "source second") + marked(&svg, "port"), 0);
    let dot = shown(&["draw", "--row", "16", "--dot"], "");
    assert_eq!(dot.matches("color=\"#c4161c\"").count(), 4, "{dot}");
    // a request that is named is what is marked: of what is drawn 12, 13 and 16 come from it
    let svg = shown(&["draw", "--row", "16", "--request", "11"], "");
    assert_eq!(svg.matches(" marked\"><title>row ").count(), 3, "{svg}");
    assert!(svg.contains(" marked\"><title>row 13: "), "{svg}");
}
