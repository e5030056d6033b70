//! The program as it is run: its commands, its messages on bad input, and that no input makes it panic.

mod common;

use common::printed;
use model::random::{damage::damage, session, Rng, SMALL};
use std::fs;
use std::path::PathBuf;
use tablet::Tables;
use tablet_see::run::Problem;

const SESSION: &[u8] = include_bytes!("../../../examples/session.in");

fn shown(args: &[&str]) -> String {
    printed(args, SESSION).expect("it runs")
}

/// The message and the exit status.
fn problem(args: &[&str], input: &[u8]) -> (String, u8) {
    let problem = printed(args, input).expect_err("a problem");
    let status = problem.status();
    match problem {
        Problem::Usage(text) | Problem::Input(text) => (text, status),
        Problem::Io(error) => (error.to_string(), status),
    }
}

/// A file in a folder of this test, with some bytes.
fn file(name: &str, bytes: &[u8]) -> String {
    let at = PathBuf::from(env!("CARGO_TARGET_TMPDIR")).join(name);
    fs::write(&at, bytes).expect("a file");
    at.display().to_string()
}

#[test]
fn explain_tells_each_line() {
    assert_eq!(shown(&["explain"]), include_str!("explain.out"));
}

#[test]
fn explain_underlines_a_refused_opening() {
    let text = printed(&["explain"], b"(node 1 (op 1 256 7))\n(open)\n").expect("it runs");
    let told = "opening -> (no 3 1)\n  1 | (node 1 (op 1 256 7))\n    |               ^^^\n    \
                Refusal 3, rule O13, at line 1: the range of an operation is 0 to 255.\n";
    assert!(text.starts_with(told), "{text}");
    let text = printed(&["explain"], b"(process 1 1)\n(open)\n").expect("it runs");
    assert!(
        text.contains("rule O17, at line 1: node 1 has no form before (open)."),
        "{text}"
    );
    let text = printed(&["explain"], b"").expect("it runs");
    assert!(
        text.contains("rule O12, at line 1: the text ends without (open)."),
        "{text}"
    );
}

#[test]
fn explain_underlines_a_bad_line() {
    let text = printed(
        &["explain"],
        b"(process 1 1)\n(node 1)\n(open)\n(1 hold 01)\n(1\thold 1)\n",
    )
    .expect("it runs");
    assert!(
        text.contains("1: (1 hold 01) -> (no 2)\n           ^^\n"),
        "{text}"
    );
    assert!(
        text.contains("2: (1\\thold 1) -> (no 2)\n     ^^\n"),
        "{text}"
    );
}

/// Process 1 asks process 2 over port 3 and lends row 2 and the end 5; with the calls that follow.
fn answering(calls: &str) -> Vec<u8> {
    let opening = "(node 1 (op 2 0 7))\n(process 1 1)\n(process 2 1)\n(open)\n";
    let asked = "(1 hold 1)\n(1 port 2)\n(1 port 2)\n(1 ask 3 (2 3) (5 0))\n";
    [opening, asked, calls].concat().into_bytes()
}

#[test]
fn explain_tells_whether_a_request_was_served() {
    let calls = "(2 answer 4 1)\n(2 fetch 4)\n(2 port 8)\n(2 ask 9)\n(2 answer 4 1)\n";
    let text = printed(&["explain"], &answering(calls)).expect("it runs");
    let refused = "5: (2 answer 4 1) -> (no 11)\n    \
                   Refusal 11, rule answer-11b: request 7 is not fetched yet.\n    \
                   Fetch before an answer with 1; with 0 it needs no fetch.\n";
    assert!(text.contains(refused), "{text}");
    // the request that the server asked with what it borrowed is closed too, by no answer of its own
    let served = "9: (2 answer 4 1) -> (ok 0)\n    \
                  Request 7 of process 1 on port 3 is closed: process 2 served it.\n    \
                  Request 11 of process 2 on port 9 is closed.\n    \
                  Row 5 (client end of port 5) comes back from process 2 to process 1.\n";
    assert!(text.contains(served), "{text}");
    let text = printed(&["explain"], &answering("(2 answer 4 0)\n")).expect("it runs");
    let declined = "5: (2 answer 4 0) -> (ok 0)\n    \
                    Request 7 of process 1 on port 3 is closed: process 2 declined it.\n";
    assert!(text.contains(declined), "{text}");
    let revoked = printed(&["explain"], &answering("(1 revoke 7)\n")).expect("it runs");
    let told = "Request 7 of process 1 on port 3 is closed.\n";
    assert!(revoked.contains(told), "{revoked}");
    let tried = printed(&["what-if", "(2 answer 4 0)"], &answering("")).expect("it runs");
    let told = "Would be closed:\n    Request 7 of process 1 on port 3 is closed: process 2 declined it.\n";
    assert!(tried.contains(told), "{tried}");
}

/// A line, the part of it that is underlined, and what is said.
const WRONG_LINES: [(&str, &str, &str); 23] = [
    ("(2 reply 4)", "reply", "2, rule F3: 'reply' is no call."),
    ("(2 refuse 4)", "refuse", "2, rule F3: 'refuse' is no call."),
    (
        "(2 answer 4)",
        ")",
        "2, rule T5: answer wants a server end and 0 or 1: (p answer v x).",
    ),
    ("(2 answer 4 1 1)", "1", "2, rule T5: answer wants"),
    ("(2 answer 4 (1))", "(1)", "2, rule T5: answer wants"),
    (
        "(2 answer 4 01)",
        "01",
        "2, rule T3: a number has no 0 in front.",
    ),
    (
        "(2 answer 4 2)",
        "2",
        "3, rule F4: the range of the last number of answer is 0 to 1.",
    ),
    (
        "(2 answer 0 2)",
        "0",
        "3, rule F4: the range of a row is 1 to 4294967294.",
    ),
    (
        "(go 0)",
        "go",
        "2, rule F3: a call begins with the caller's number, only comes, chain and comesall do not.",
    ),
    (
        "(2 chain 4)",
        "chain",
        "2, rule F3: chain has no caller: (chain e).",
    ),
    ("(chain)", ")", "2, rule T5: chain wants a row: (chain e)."),
    ("(chain 4 6)", "6", "2, rule T5: chain wants"),
    ("(chain (4))", "(4)", "2, rule T5: chain wants"),
    (
        "(chain 04)",
        "04",
        "2, rule T3: a number has no 0 in front.",
    ),
    (
        "(chain 0)",
        "0",
        "3, rule F4: the range of a row is 1 to 4294967294.",
    ),
    (
        "(2 comesall (4 7))",
        "comesall",
        "2, rule F3: comesall has no caller: (comesall (e q) ..).",
    ),
    (
        "(comesall)",
        ")",
        "2, rule T5: comesall wants one pair or more: (comesall (e q) ..).",
    ),
    (
        "(comesall 4 7)",
        "4",
        "2, rule T5: a pair is a row and a request: (e q).",
    ),
    ("(comesall (4 7) 9)", "9", "2, rule T5: a pair is"),
    ("(comesall (4 7) (9))", "(9)", "2, rule T5: a pair is"),
    ("(comesall (4 7 9))", "(4 7 9)", "2, rule T5: a pair is"),
    ("(comesall (4 -))", "-", "2, rule T3: a number has no sign."),
    (
        "(comesall (4 7) (5 0))",
        "0",
        "3, rule F4: the range of the request of pair 2 is 1 to 4294967294.",
    ),
];

#[test]
fn explain_underlines_what_is_wrong_in_a_call() {
    for (line, part, said) in WRONG_LINES {
        let text = printed(&["explain"], &answering(&format!("{line}\n"))).expect("it runs");
        let front = " ".repeat("5: ".len() + line.rfind(part).expect("a part"));
        let marks = "^".repeat(part.len());
        let told = format!(
            "5: {line} -> (no {})\n{front}{marks}\n    Refusal {said}",
            &said[..1]
        );
        assert!(text.contains(&told), "{told}\nis not in\n{text}");
    }
}

#[test]
fn explain_names_the_clause_of_unsound_words() {
    let mut tables =
        Tables::open("(node 1 (op 1 0 7))\n(process 1 1)\n(open)\n").expect("an opening");
    tables.call("(1 hold 1)\n");
    let sound = file("sound.words", &tables.save());
    let text = printed(&["explain", "--tables", &sound], b"(1 port 2)\n").expect("it runs");
    assert!(text.starts_with("tables handed in\n"), "{text}");
    assert!(text.contains("1: (1 port 2) -> (ok 3)"), "{text}");
    let mut words = tables.words();
    words.tables[8 * 1024 + 1] = 5;
    let unsound = file("unsound.words", &words.to_bytes());
    let text = printed(&["explain", "--tables", &unsound], b"(1 port 2)\n").expect("it runs");
    let told = "The tables are not sound: rule S14: row 2 (operation 0 of manager 1) has depth 5; by its sources it \
                is 2, and at most 12 is allowed.\n1: (1 port 2) -> (no 1)\n";
    assert!(text.starts_with(told), "{text}");
    let (text, status) = problem(&["list", "--tables", &unsound], b"");
    assert!(
        text.starts_with("The tables are not sound: rule S14") && status == 1,
        "{text}"
    );
}

#[test]
fn what_if_changes_nothing_and_tells_what_would() {
    let text = shown(&["what-if", "(1 revoke 7)", "--after", "5"]);
    let told = "(1 revoke 7) -> (ok 0)\nWould vanish:\n    Row 8 (operation 5 of manager 2), lent by process 1, row 9 \
                (client end of port 9) and row 10 (server end of port 9) go, out of the c-list of process 2.\n\
                Would be closed:\n    Request 7 of process 1 on port 5 is closed.\n";
    assert_eq!(text, told);
    let text = shown(&["what-if", "(comes 9 7)\n", "--after", "5"]);
    assert!(
        text.contains(
            "Row 9 (client end of port 9) comes from request 7 of process 1 on port 5: \
             it was made from row 8, and 8 bears its number."
        ),
        "{text}"
    );
    assert!(text.ends_with("Nothing would change.\n"), "{text}");
    let text = shown(&["what-if", "(2 revoke 7)", "--after", "5"]);
    assert!(
        text.contains("rule revoke-7b: request 7 was asked by process 1, not by 2."),
        "{text}"
    );
    assert!(text.ends_with("Nothing would change.\n"), "{text}");
}

#[test]
fn an_end_that_would_come_back() {
    let calls = b"(node 1 (op 2 0 7))\n(process 1 1)\n(process 2 1)\n(open)\n(1 hold 1)\n(1 port 2)\n(1 port 2)\n\
                  (1 ask 3 (5 0))\n(2 fetch 4)\n";
    let text = printed(&["what-if", "(1 revoke 7)"], calls).expect("it runs");
    let told = "Would come back:\n    Row 5 (client end of port 5) comes back from process 2 to process 1.\n";
    assert!(text.contains(told), "{text}");
}

#[test]
fn the_picture_of_the_documents_is_what_is_drawn() {
    let picture = concat!(env!("CARGO_MANIFEST_DIR"), "/../../docs/session.svg");
    let picture = fs::read_to_string(picture).expect("docs/session.svg");
    assert_eq!(
        shown(&["draw", "--after", "5", "--request", "7"]),
        picture,
        "tablet-see draw --after 5 --request 7 < examples/session.in > docs/session.svg"
    );
}

#[test]
fn draw_marks_and_cuts() {
    let cards = |svg: &str, class: &str| svg.matches(&format!("<g class=\"card {class}")).count();
    let whole = shown(&["draw", "--after", "5"]);
    assert_eq!((cards(&whole, ""), cards(&whole, "request")), (10, 1));
    let marked = shown(&["draw", "--after", "5", "--request", "7"]);
    assert_eq!(marked.matches("marked\"><title>").count(), 4);
    let part = shown(&["draw", "--row", "3", "--after", "5", "--svg"]);
    assert_eq!(cards(&part, ""), 1);
    let dot = shown(&["draw", "--dot", "--after", "5"]);
    assert_eq!(dot.matches(" [shape=").count(), 10);
    assert!(
        dot.contains("r8 -> r4 [style=solid];") && dot.contains("r8 -> r5 [style=dotted];"),
        "{dot}"
    );
}

#[test]
fn list_has_each_part() {
    let server = shown(&["list", "--server", "6", "--after", "3"]);
    assert!(server.starts_with("server end 6 of port 5, in the c-list of process 2\n  request 7 on port 5, asked by process 1, not fetched"), "{server}");
    assert!(server.contains("    row 8: operation 5 of manager 2, rights 3 (hold, transfer), lent by process 1 to process 2 in request 7, not fetched yet"), "{server}");
    let asker = shown(&["list", "--asker", "1", "--after", "4"]);
    assert_eq!(
        asker,
        "open requests of process 1\n  request 7 on port 5, asked by process 1, fetched, items 8\n"
    );
    assert_eq!(
        shown(&["list", "--node", "2"]),
        "node 2\n  row 3: operation 1 of manager 3, rights 1 (hold)\n"
    );
    assert_eq!(
        shown(&["list", "--process", "3"]),
        "c-list of process 3, in its prime node 2\n  none\n"
    );
    let json = shown(&["list", "--json", "--server", "6", "--after", "3"]);
    assert!(
        json.contains(
            "\"requests\":[{\"request\":7,\"port\":5,\"asker\":1,\"fetched\":false,\"items\":[8]}]"
        ),
        "{json}"
    );
}

/// The page of the example, of saved tables, and after the opening alone.
#[test]
fn holders_is_the_page() {
    let page = include_str!("../../../examples/session.page");
    assert_eq!(shown(&["holders"]), page);
    let opened = shown(&["holders", "--after", "0"]);
    assert_eq!(opened, page[..3 * 65]);
    let tables = Tables::open("(node 9 (dir 9 1))\n(process 1 9)\n(open)\n").expect("opened");
    let saved = file("page", &tables.save());
    let text = printed(&["holders", "--tables", &saved], b"(1 hold 1)\n").expect("it runs");
    let lines: Vec<&str> = text.lines().map(str::trim_end).collect();
    assert_eq!(lines[0], "         1 dir    node 9    1  1");
    assert_eq!(lines[1..], ["         2 dir    proc 1    1  2"]);
}

#[test]
fn wrong_command_lines_and_numbers_are_told() {
    let usage = |args: &[&str], told: &str| {
        let (text, status) = problem(args, SESSION);
        assert!(text.contains(told) && status == 2, "{args:?}: {text}");
    };
    usage(&[], "no command");
    usage(&["show"], "no command 'show'");
    usage(&["draw", "--pdf"], "draw: no option '--pdf'");
    usage(&["draw", "--svg", "--dot"], "either --svg or --dot");
    usage(&["draw", "--row"], "draw: --row wants a value");
    usage(&["draw", "--row", "x"], "--row: 'x' is no number");
    usage(&["list", "--after", "-1"], "--after: '-1' is no number");
    usage(&["list", "--node", "1", "--asker", "1"], "only one of");
    usage(&["list", "--json", "--json"], "--json is there twice");
    usage(
        &["explain", "session.in"],
        "'session.in' is one word too many",
    );
    usage(&["what-if"], "the line to try is missing");
    let input = |args: &[&str], told: &str| {
        let (text, status) = problem(args, SESSION);
        assert!(text.contains(told) && status == 1, "{args:?}: {text}");
    };
    input(
        &["list", "--after", "8"],
        "--after 8: the session has 7 calls",
    );
    input(&["list", "--process", "4"], "process 4 is not listed");
    input(
        &["list", "--server", "5"],
        "row 5 is no server end: it is a client end",
    );
    input(&["list", "--server", "99"], "no row 99 stands");
    input(&["draw", "--row", "99"], "--row 99: no such row stands");
    input(
        &["draw", "--request", "7"],
        "--request 7: no such request is open",
    );
    input(
        &["page", "--tables", "/nowhere/at/all"],
        "/nowhere/at/all: ",
    );
    input(
        &["page", "--tables", &file("short.words", b"(tablet 1)\n")],
        "11 bytes, not the 45839",
    );
    input(
        &["page", "--tables", &file("other.words", b"\x00\x01")],
        "not saved tables",
    );
    let (text, status) = problem(&["draw"], b"(node 1)\n(node 1)\n");
    assert!(
        text.contains("rule O14, at line 2: node 1 has a form already, at line 1.") && status == 1,
        "{text}"
    );
    assert!(shown(&["--help"]).contains("tablet-see what-if '(1 revoke 7)' < day.txt"));
}

/// Brackets and quotes of JSON text close, and nothing follows.
fn well_formed(json: &str) -> bool {
    let (mut open, mut quoted, mut escaped) = (Vec::new(), false, false);
    for c in json.trim_end().chars() {
        match (quoted, escaped, c) {
            (true, true, _) => escaped = false,
            (true, false, '\\') => escaped = true,
            (_, _, '"') => quoted = !quoted,
            (true, _, c) if c < ' ' => return false,
            (false, _, '{' | '[') => open.push(c),
            (false, _, '}') if open.pop() != Some('{') => return false,
            (false, _, ']') if open.pop() != Some('[') => return false,
            _ => {}
        }
    }
    open.is_empty() && !quoted
}

#[test]
fn no_input_makes_it_panic() {
    let commands: [&[&str]; 11] = [
        &["explain"],
        &["what-if", "(1 revoke 9)"],
        &["what-if", "(chain 9)"],
        &["what-if", "(comesall (9 12) (3 4))"],
        &["draw"],
        &["draw", "--dot", "--row", "3"],
        &["draw", "--request", "12"],
        &["page"],
        &["list"],
        &["list", "--json"],
        &["holders"],
    ];
    for seed in 0..150u64 {
        let mut rng = Rng::new(seed);
        let mut input = session(seed, SMALL[seed as usize % SMALL.len()], 25);
        if seed % 3 != 0 {
            input = damage(&mut rng, &input);
        }
        for command in commands {
            if let (Ok(text), ["list", "--json"]) = (printed(command, &input), command) {
                assert!(well_formed(&text), "{text}");
            }
        }
    }
    for bytes in [
        &b"\xff\xfe\x00"[..],
        b"\n",
        b"(open)",
        b"(open)\n\xc3\x28\n</script>\n",
        &[b'('; 70_000],
    ] {
        commands
            .iter()
            .for_each(|command| drop(printed(command, bytes)));
    }
}

#[test]
fn the_page_has_no_text_of_the_input_as_markup() {
    let page = printed(&["page"], b"(open)\n</script><b>x\n").expect("a page");
    assert_eq!(page.matches("</script>").count(), 2);
    assert!(!page.contains("<b>"), "markup of the input");
    assert!(
        !page.contains("http://")
            || page.matches("http://").count()
                == page.matches("http://www.w3.org/2000/svg").count()
    );
}

/// The answers in what `explain` prints: of the opening, then of each call.
fn answers(told: &str) -> String {
    let answered = |line: &&str| {
        line.starts_with("opening -> ") || line.starts_with(|c: char| c.is_ascii_digit())
    };
    let answers = told.lines().filter(answered);
    let answers = answers.filter_map(|line| line.rsplit_once(" -> "));
    answers.map(|(_, answer)| format!("{answer}\n")).collect()
}

#[test]
fn conformance_sessions_are_answered_as_told() {
    let folder = concat!(
        env!("CARGO_MANIFEST_DIR"),
        "/../../model/conformance/sessions"
    );
    let mut sessions = 0;
    for entry in fs::read_dir(folder).expect("the sessions") {
        let path = entry.expect("a file").path();
        if path.extension().is_some_and(|kind| kind == "session") {
            let input = fs::read(&path).expect("a session");
            let expected = fs::read_to_string(path.with_extension("answers")).expect("its answers");
            let told = printed(&["explain"], &input).expect("it runs");
            assert_eq!(answers(&told), expected, "{}", path.display());
            sessions += 1;
        }
    }
    assert!(sessions >= 184, "{sessions} sessions");
}
