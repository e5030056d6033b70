//! Texts: the refusals of openings and call lines, damaged texts, any bytes.

use model::form::{print_form, read_line, Part};
use model::random::{self, damage, Rng, PROFILES};
use model::run_session;
use model::session::{call, open, Session};

fn answers(session: &str) -> String {
    String::from_utf8(run_session(session.as_bytes())).unwrap()
}

/// The first answer to a text.
fn first(text: &str) -> String {
    answers(text).lines().next().unwrap_or("").to_string()
}

/// Texts that have one form or more before `(open)`.
#[test]
fn openings() {
    let cases = [
        ("", "(no 2 1)"),
        ("\n", "(no 2 1)"),
        ("(open)", "(no 2 1)"),
        ("(open)\n", "(ok 0)"),
        ("(open) \n", "(no 2 1)"),
        ("(open)\r\n", "(no 2 1)"),
        ("(open 1)\n", "(no 2 1)"),
        ("(node 1)\n", "(no 2 2)"),
        ("(node 1)\n(node 2)\n(proc", "(no 2 3)"),
        ("(node 1)\n(open)x\n(open)\n", "(no 2 2)"),
        ("(node 1)\n(node 1)\n(open)\n", "(no 4 2)"),
        ("(node 1)\n(process 1 1)\n(process 1 1)\n", "(no 4 3)"),
        ("(node 1)\n(node 1)\n(node 33)\n", "(no 4 2)"),
        ("(node 1 (op 1 0 0))\n(open)\n", "(no 5 1)"),
        ("(node 1 (dir 2 0))\n(open)\n", "(no 5 1)"),
        ("(process 1 1)\n(open)\n", "(no 5 1)"),
        ("(process 1 1)\n(open)\n(node 1)\n", "(no 5 1)"),
        ("(process 1 2)\n(node 2)\n(open)\n", "(ok 0)"),
        (
            "(node 1)\n(node 2 (dir 1 0) (dir 3 0))\n(process 1 4)\n(open)\n",
            "(no 5 2)",
        ),
        ("(process 1 2)\n(node 1)\n(x)\n(open)\n", "(no 2 3)"),
        ("(process 1 2)\n(node 1)\n(node 33)\n(open)\n", "(no 3 3)"),
        ("(process 1 2)\n(node 1)\n", "(no 2 3)"),
        ("(node 33)\n(x)\n(open)\n", "(no 3 1)"),
        (
            "(node 1 (op 1 255 7) (op 1 255 7))\n(process 1 1)\n(open)\n",
            "(ok 0)",
        ),
        ("(node 32)\n(process 64 32)\n(open)\n", "(ok 0)"),
    ];
    for (text, answer) in cases {
        assert_eq!(first(text), answer, "{text:?}");
    }
}

/// One line, then a good end: refused with 2 or 3 at line 1.
#[test]
fn opening_lines() {
    let bad = "(node 01)|(node 1 )|( node 1)|(node  1)|(node 1) | (node 1)|()|(node)|\
        (node 1 5)|(node 1 (op 1 1))|(node 1 (op 1 1 1 1))|(node 1 (dir 1 1 1))|\
        (process 1)|(process 1 1 1)|(Node 1)|(node\t1)|(node 1)\r|\
        (node 1 (op 1 1 1)(dir 1 1))|(node 1(op 1 1 1))|((node 1))|\
        (node 1 (open))|(node (1))|(node -1)|(node +1)|(node 1|node 1)|\
        (node 1))|(nodes 1)|(node 1 (xx 1 1))|(node 1 (op 1 1 1) )|(hold 1)|\
        (1 go 0)|(node 1\0)|(node 99 x)";
    for line in bad.split('|') {
        assert_eq!(first(&format!("{line}\n(open)\n")), "(no 2 1)", "{line:?}");
    }
    let out_of_range = "(node 0)|(node 33)|(process 0 1)|(process 65 1)|(process 1 0)|\
        (process 1 33)|(node 1 (op 0 0 0))|(node 1 (op 65 0 0))|\
        (node 1 (op 1 256 0))|(node 1 (op 1 0 8))|(node 1 (dir 0 0))|\
        (node 1 (dir 33 0))|(node 1 (dir 1 8))|(node 4294967297)|\
        (node 18446744073709551617)";
    for line in out_of_range.split('|') {
        assert_eq!(first(&format!("{line}\n(open)\n")), "(no 3 1)", "{line:?}");
    }
}

/// (rule O15) More than 16 entries: 16 are accepted; 2, 3 and 4 come before 6.
#[test]
fn entries() {
    let with = |count: usize, last: &str| {
        let entries = " (dir 1 0)".repeat(count);
        first(&format!("(node 1{entries}{last})\n(open)\n"))
    };
    assert_eq!(with(16, ""), "(ok 0)");
    assert_eq!(with(17, ""), "(no 6 1)");
    assert_eq!(with(16, " (dir 2 0)"), "(no 6 1)");
    assert_eq!(with(17, " (dir 1 8)"), "(no 3 1)");
    assert_eq!(with(17, " (dir 1 8 8)"), "(no 2 1)");
    let second = format!("(node 1)\n(node 1{})\n(open)\n", " (dir 1 0)".repeat(17));
    assert_eq!(first(&second), "(no 4 2)");
}

/// (rule T1) At most 255 bytes before the line feed: a number fills the line.
#[test]
fn line_length() {
    let node = |digits: usize| first(&format!("(node {})\n(open)\n", "1".repeat(digits)));
    assert_eq!(node(248), "(no 3 1)");
    assert_eq!(node(249), "(no 2 1)");
    let opening = "(node 1)\n(process 1 1)\n(open)\n";
    let hold = |digits: usize| answers(&format!("{opening}(1 hold {})\n", "9".repeat(digits)));
    assert_eq!(hold(246), "(ok 0)\n(no 3)\n");
    assert_eq!(hold(247), "(ok 0)\n(no 2)\n");
}

/// Call lines by the refusal they get on a node with one operation of process
/// 1, which has no row.
const REFUSED_LINES: [(u32, &str); 6] = [
    (
        2,
        "|(1 go 0)\n|(1 go 0)\n(1 go 0)|(1 go 0) | (1 go 0)|(1  go 0)|(1 go 0))|\
        ((1 go 0))|(1 GO 0)|(1 go\x000)|(1 comes 1 1)|(go 0)|(open)|(comes 1)|\
        (comes 1 1 1)|(1 go)|(1 go 0 0)|(1 ask)|(1 ask 5 5)|(1 ask 5 (5))|\
        (1 ask 5 (5 1 1))|(1 ask (5 1))|(1 hold (1))|(1 fly 1)|(01 go 0)|(1 go 00)|\
        (1 go -1)|(1 go 0)\r|(99 ask 99999999 (1 9) (1 9) x)|(1 ask 5 (5 1)(6 1))|\
        (1 ask 5 (5 1) )|go|(process 1 1)|(node 1)|(1 goo 0)|(1 g 0)|(1 answer)|(1 answer 1)|\
        (1 answer 1 1 1)|(1 answer 1 (1))|(1 answer 1 (1 0))|(1 answer (1 1))|(1 answer 1 01)|\
        (1 answer 1 1 )|(1 answer 1  1)|(answer 1 1)|(1 Answer 1 1)|(1 reply 1)|(1 refuse 1)|\
        (1 reply 1 1)|(1 refuse 1 0)|(65 answer 1 01)|(chain)|(1 chain 1)|(chain 1 1)|(chain (1))|\
        (chain 01)|(chain 1 )|(chain  1)|(Chain 1)|(chains 1)|(chain1)|(comesall)|\
        (1 comesall (1 1))|(comesall 1 1)|(comesall (1))|(comesall (1 1 1))|(comesall ())|\
        (comesall (1 1) 1)|(comesall (1 1) (1))|(comesall (1 01))|(comesall (1 1)(1 1))|\
        (comesall(1 1))|(comesall  (1 1))|(comesall (1 1) )|(comesall (1 -))|(comesall ((1 1)))|\
        (Comesall (1 1))|(comesallx (1 1))|(comesal (1 1))|(comes all (1 1))|(comes (1 1))|\
        (comesall (0 1) (01 1))",
    ),
    (
        3,
        "(0 go 0)|(65 go 0)|(1 go 4294967295)|(1 hold 0)|(1 hold 18446744073709551617)|\
        (1 hold 4294967296)|(1 hold 4294967297)|(1 go 42949672950)|\
        (1 go 18446744073709551616)|(comes 0 1)|(comes 1 0)|(comes 4294967295 1)|(1 ask 0)|\
        (1 ask 5 (0 1))|(1 ask 5 (1 8))|(2 ask 5 (1 8) (1 8))|(1 revoke 0)|\
        (1 ask 5 (1 0) (1 0) (1 0) (1 0) (1 9))|(1 answer 1 2)|(2 answer 1 2)|(1 answer 0 1)|\
        (1 answer 1 4294967295)|(1 answer 1 4294967297)|(1 answer 4294967295 0)|(65 answer 1 1)|\
        (chain 0)|(chain 4294967295)|(chain 4294967297)|(chain 18446744073709551617)|\
        (comesall (0 1))|(comesall (1 0))|(comesall (1 1) (1 0))|(comesall (4294967295 1))|\
        (comesall (1 4294967297))|(comesall (1 1) (18446744073709551617 1))",
    ),
    (
        4,
        "(1 ask 5 (1 0) (1 1))|(2 ask 5 (1 0) (1 0))|\
        (1 ask 5 (1 0) (2 0) (3 0) (4 0) (1 0))",
    ),
    (
        5,
        "(2 go 0)|(2 go 9)|(64 hold 1)|(2 ask 1 (1 0) (2 0) (3 0) (4 0) (5 0))|\
        (2 answer 1 0)|(2 answer 1 1)",
    ),
    (
        6,
        "(1 ask 1 (1 0) (2 0) (3 0) (4 0) (5 0))|(comesall (1 1) (1 1) (1 1) (1 1) (1 1) (1 1) (1 1) \
        (1 1) (1 1) (1 1) (1 1) (1 1) (1 1) (1 1) (1 1) (1 1) (1 1))",
    ),
    (
        7,
        "(1 go 4294967294)|(1 go 4294967290)|(1 go 1000001)|(1 go 1)|(comes 1 1)|\
        (1 hold 2)|(1 revoke 1)|(1 ask 1 (1 0) (2 0) (3 0) (4 0))|(1 answer 1 0)|(1 answer 1 1)|\
        (chain 2)|(chain 4294967294)",
    ),
];

#[test]
fn call_lines() {
    let (tables, answer, _) = open(b"(node 1 (op 1 0 7))\n(process 1 1)\n(open)\n");
    assert!(answer.accepted());
    let answer = |line: &str| {
        let mut after = tables.clone();
        let answer = call(&mut after, line.as_bytes());
        assert!(answer.accepted() || after == tables, "{line:?}");
        answer.refusal()
    };
    for (k, lines) in REFUSED_LINES {
        for line in lines.split('|') {
            assert_eq!(answer(&format!("{line}\n")), Some(k), "{line:?}");
        }
    }
    assert_eq!(answer(""), Some(2));
    assert_eq!(answer("(1 go 0)"), Some(2));
    assert_eq!(answer("(1 go 0)\n"), None);
    assert_eq!(answer("(chain 1)\n"), None);
    assert_eq!(answer("(comesall (1 1))\n"), None);
}

/// (rules O8, K10) What follows it is not read; the last line without a line feed is a call.
#[test]
fn lines_of_a_session() {
    let opening = "(node 1)\n(process 1 1)\n(open)\n";
    let run = |rest: &str| answers(&format!("{opening}{rest}"));
    assert_eq!(run(""), "(ok 0)\n");
    assert_eq!(run("\n"), "(ok 0)\n(no 2)\n");
    assert_eq!(run("(1 go 0)"), "(ok 0)\n(no 2)\n");
    assert_eq!(
        run("(1 go 0)\n\n(1 go 0)\n"),
        "(ok 0)\n(ok 0)\n(no 2)\n(ok 0)\n"
    );
    assert_eq!(
        run(&("x".repeat(1000) + "\n(1 go 0)\n")),
        "(ok 0)\n(no 2)\n(ok 0)\n"
    );
    assert_eq!(answers("(node 33)\n(open)\n(1 go 0)\n"), "(no 3 1)\n");
}

/// Damaged sessions: one line for the opening, then one a line of the rest.
#[test]
fn damaged_sessions_print_one_line_a_call() {
    let mut rng = Rng::new(41);
    let mut refused_openings = 0;
    for seed in 0..3_000 {
        let profile = PROFILES[seed as usize % 5];
        let text = random::session(seed, profile, 12);
        let damaged = damage::damage(&mut rng, &text);
        let printed = run_session(&damaged);
        let lines = printed.split_inclusive(|b| *b == b'\n').count();
        let (_, opening, bytes) = open(&damaged);
        let rest = damaged[bytes..].split_inclusive(|b| *b == b'\n').count();
        assert_eq!(lines, 1 + rest, "seed {seed}");
        refused_openings += usize::from(!opening.accepted());
    }
    assert!(refused_openings > 500, "{refused_openings}");
}

fn has_greatest(parts: &[Part]) -> bool {
    parts.iter().any(|part| match part {
        Part::Number(n) => *n == u32::MAX,
        Part::Word(_) => false,
        Part::Form(inner) => has_greatest(inner),
    })
}

/// A line that is read as a form is that form's printed text, byte for byte.
#[test]
fn forms_have_one_spelling() {
    let mut rng = Rng::new(42);
    let (mut read, mut bad) = (0, 0);
    for seed in 0..400 {
        let text = random::session(seed, PROFILES[seed as usize % 5], 25);
        for line in text.split_inclusive(|b| *b == b'\n') {
            let line = damage::damage(&mut rng, line);
            let Some(parts) = read_line(&line) else {
                bad += 1;
                continue;
            };
            read += 1;
            let printed = print_form(&parts) + "\n";
            assert!(
                has_greatest(&parts) || printed.as_bytes() == line,
                "{line:?}"
            );
        }
    }
    assert!(read > 1_000 && bad > 1_000, "{read} read, {bad} bad");
}

/// Any bytes: an answer, and a refused call changes nothing.
#[test]
fn any_bytes() {
    let mut rng = Rng::new(43);
    let alphabet =
        b"(( )) \n\n0123456789 node process open op dir go hold ask answer comes chain comesall";
    for round in 0..20_000 {
        let length = rng.below(80);
        let byte = |_| match round % 2 {
            0 => rng.word() as u8,
            _ => rng.pick(alphabet).unwrap_or(0),
        };
        let bytes: Vec<u8> = (0..length).map(byte).collect();
        assert!(run_session(&bytes).ends_with(b")\n"));
        let mut session = Session::begin(b"(node 1 (op 1 0 7))\n(process 1 1)\n(open)\n");
        let before = session.tables.clone();
        let answer = call(&mut session.tables, &bytes);
        assert!(answer.accepted() || session.tables == before);
    }
}
