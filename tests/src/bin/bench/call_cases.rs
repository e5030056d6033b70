//! The calls that are measured: each accepted, and each refused with the
//! highest number that it has, on tables of so many rows.

use kernel::fuller::{with_numbers_left, with_requests, with_rows};
use kernel::plain::closing_tables::{call, opened};
use model::limits::{LAST_NUMBER, REQUESTS};
use model::random::shifted::near_limit;
use model::Tables;

pub struct Case {
    pub name: String,
    pub tables: Tables,
    /// With its line feed.
    pub line: String,
    /// 0 for none.
    pub refusal: u32,
}

/// What the tables of a case begin with: an opening, and calls on it.
struct Start {
    opening: &'static str,
    calls: &'static [&'static [&'static str]],
}

const TWO_NODES: &str = "(node 1 (op 2 0 7) (dir 2 7))\n(node 2 (op 2 1 7))\n\
    (process 1 1)\n(process 2 1)\n(open)\n";

const ONE_NODE: &str = "(node 1 (op 2 0 7) (dir 1 7))\n(process 1 1)\n(process 2 1)\n(open)\n";

const HOLD_BOTH: &[&str] = &["(1 hold 1)", "(1 hold 2)"];

/// An operation held by process 1, row 4, and a subdirectory, row 5; row 3 is in its node.
const DIRECTORIES: Start = Start {
    opening: TWO_NODES,
    calls: &[HOLD_BOTH],
};

/// The same, and process 1 is in that node.
const IN_NODE: Start = Start {
    opening: TWO_NODES,
    calls: &[HOLD_BOTH, &["(1 go 5)"]],
};

/// An operation and a subdirectory held, rows 3 and 4, and two ports, client ends 5 and 7.
const MAKE_PORTS: &[&str] = &["(1 port 3)", "(1 port 3)"];
const PORTS: Start = Start {
    opening: ONE_NODE,
    calls: &[HOLD_BOTH, MAKE_PORTS],
};

/// Over the first port a request, number 9, with two copies and the other port's client end.
const ASK: &[&str] = &["(1 ask 5 (3 7) (4 7) (7 0))"];
const ASKED: Start = Start {
    opening: ONE_NODE,
    calls: &[HOLD_BOTH, MAKE_PORTS, ASK],
};

/// And fetched.
const FETCHED: Start = Start {
    opening: ONE_NODE,
    calls: &[HOLD_BOTH, MAKE_PORTS, ASK, &["(2 fetch 6)"]],
};

/// Process 1 lends end 5 to process 2, which lends it to itself: a newer request lists it.
const LEND: &[&str] = &["(1 port 2)", "(1 port 2)", "(1 ask 3 (5 0))", "(2 fetch 4)"];
const LEND_ON: &[&str] = &[
    "(2 hold 1)",
    "(2 port 8)",
    "(2 ask 9 (5 0))",
    "(2 fetch 10)",
];
const LENT_ON: Start = Start {
    opening: "(node 1 (op 2 0 7))\n(process 1 1)\n(process 2 1)\n(open)\n",
    calls: &[&["(1 hold 1)"], LEND, LEND_ON],
};

/// Rows registered each from the one before, the last held: row 23, the twelfth of its first chain;
/// and an operation held beside them.
const LINE: Start = Start {
    opening: ONE_NODE,
    calls: &[
        &["(1 hold 1)", "(1 register 3)", "(1 drop 3)"],
        &["(1 hold 4)", "(1 register 5)", "(1 drop 5)"],
        &["(1 hold 6)", "(1 register 7)", "(1 drop 7)"],
        &["(1 hold 8)", "(1 register 9)", "(1 drop 9)"],
        &["(1 hold 10)", "(1 register 11)", "(1 drop 11)"],
        &["(1 hold 12)", "(1 register 13)", "(1 drop 13)"],
        &["(1 hold 14)", "(1 register 15)", "(1 drop 15)"],
        &["(1 hold 16)", "(1 register 17)", "(1 drop 17)"],
        &["(1 hold 18)", "(1 register 19)", "(1 drop 19)"],
        &["(1 hold 20)", "(1 register 21)", "(1 drop 21)"],
        &["(1 hold 22)", "(1 hold 1)"],
    ],
};

/// The call's name, answer's with its last number, chain's with the depth of its row, comesall's with
/// how many pairs it has, the start, the line, its refusal or 0, and the rows that it adds.
type Measured = (&'static str, &'static Start, &'static str, u32, usize);

/// One pair more than there may be.
const CROWDED: &str =
    "(comesall (1 9) (2 9) (3 9) (4 9) (5 9) (6 9) (7 9) (8 9) (9 9) (10 9) (11 9) \
    (1 9) (2 9) (3 9) (4 9) (5 9) (6 9))";

const CASES: [Measured; 29] = [
    ("go", &DIRECTORIES, "(1 go 5)", 0, 0),
    ("go", &DIRECTORIES, "(1 go 4)", 8, 0),
    ("hold", &IN_NODE, "(1 hold 3)", 0, 1),
    ("hold", &IN_NODE, "(1 hold 3)", 18, 1),
    ("register", &DIRECTORIES, "(1 register 4)", 0, 1),
    ("register", &DIRECTORIES, "(1 register 4)", 18, 1),
    ("drop", &DIRECTORIES, "(1 drop 5)", 0, 0),
    ("drop", &IN_NODE, "(1 drop 5)", 13, 0),
    ("port", &DIRECTORIES, "(1 port 4)", 0, 2),
    ("port", &DIRECTORIES, "(1 port 4)", 18, 2),
    ("close", &FETCHED, "(1 close 5)", 0, 0),
    ("close", &FETCHED, "(2 close 7)", 12, 0),
    ("ask", &PORTS, "(1 ask 5 (3 7) (4 7) (7 0))", 0, 2),
    ("ask", &PORTS, "(1 ask 5 (3 7) (4 7) (7 0))", 18, 2),
    ("fetch", &ASKED, "(2 fetch 6)", 0, 0),
    ("fetch", &FETCHED, "(2 fetch 6)", 11, 0),
    ("answer 1", &FETCHED, "(2 answer 6 1)", 0, 0),
    ("answer 1", &LENT_ON, "(2 answer 4 1)", 14, 0),
    ("answer 0", &FETCHED, "(2 answer 6 0)", 0, 0),
    ("answer 0", &PORTS, "(2 answer 6 0)", 11, 0),
    ("revoke", &FETCHED, "(1 revoke 9)", 0, 0),
    ("revoke", &FETCHED, "(2 revoke 9)", 7, 0),
    ("comes", &FETCHED, "(comes 10 9)", 0, 0),
    ("comes", &FETCHED, "(comes 10 8)", 7, 0),
    ("chain, depth 12", &LINE, "(chain 23)", 0, 0),
    ("chain, depth 1", &FETCHED, "(chain 1)", 0, 0),
    ("chain", &FETCHED, "(chain 9)", 7, 0),
    ("comesall, 1 pair", &FETCHED, "(comesall (10 9))", 0, 0),
    ("comesall, 17 pairs", &FETCHED, CROWDED, 6, 0),
];

/// All cases at so many rows, but those that begin with more.
pub fn cases(rows: usize) -> impl Iterator<Item = Case> {
    let requests = requests_beside(rows);
    let fits = move |(_, start, _, _, adds): &&Measured| begun(start).rows.len() + adds <= rows;
    CASES
        .iter()
        .filter(fits)
        .map(move |measured| built(measured, rows, requests))
}

/// An eighth of 100 rows and of more belong to a request each.
pub fn requests_beside(rows: usize) -> usize {
    if rows < 100 {
        return 0;
    }
    rows / 8
}

/// The accepted call of that name with so many rows and requests.
pub fn accepted(name: &str, rows: usize, requests: usize) -> Case {
    let mut cases = CASES.iter().filter(|measured| measured.0 == name);
    built(cases.next().expect("a case"), rows, requests)
}

fn begun(start: &Start) -> Tables {
    let mut tables = opened(start.opening);
    for line in start.calls.iter().copied().flatten() {
        call(&mut tables, line);
    }
    tables
}

/// With so many rows, less those that the call adds, and so many requests,
/// less one if it asks. The rows of the case are the oldest.
fn built(&(call, start, line, refusal, adds): &Measured, rows: usize, requests: usize) -> Case {
    let asks = usize::from(call == "ask");
    let tables = with_requests(begun(start), requests.min(REQUESTS - asks));
    let mut tables = with_rows(tables, rows - adds);
    let mut name = call.to_string();
    if refusal != 0 {
        name += &format!(", refused {refusal}");
    }
    if refusal == 18 {
        tables = with_numbers_left(tables, 0);
    }
    assert!(model::sound(&tables), "{name}");
    let line = format!("{line}\n");
    Case {
        name,
        tables,
        line,
        refusal,
    }
}

/// The longest answer of fetch, a request and four copies, and that of chain, twelve rows; the last
/// number is among them.
pub fn longest_answers() -> [Case; 2] {
    let chain = Case {
        name: "chain, its longest answer".to_string(),
        tables: near_limit(&begun(&LINE), 0),
        line: format!("(chain {})\n", LAST_NUMBER - 1),
        refusal: 0,
    };
    assert_eq!(refusal(&chain), 0, "{}", chain.line);
    [longest_fetch(), chain]
}

fn longest_fetch() -> Case {
    let mut tables = begun(&PORTS);
    for line in ["(1 hold 1)", "(1 hold 1)"] {
        call(&mut tables, line);
    }
    tables = with_numbers_left(tables, 5);
    call(&mut tables, "(1 ask 5 (3 7) (4 7) (9 7) (10 7))");
    Case {
        name: "fetch, its longest answer".to_string(),
        tables,
        line: "(2 fetch 6)\n".to_string(),
        refusal: 0,
    }
}

/// The refusal of a call on the model, 0 for none.
pub fn refusal(case: &Case) -> u32 {
    let mut tables = case.tables.clone();
    let answer = model::session::call_sound(&mut tables, case.line.as_bytes());
    answer.refusal().unwrap_or(0)
}
