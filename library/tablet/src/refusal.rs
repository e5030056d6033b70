//! The eighteen refusals, and one of two texts that are joined: number, line, meaning and what to do (docs/MANUAL.md,
//! chapters 9 and 16).

use std::fmt;

/// A refusal of a call, of an opening or of two texts to be joined.
///
/// ```
/// use tablet::Tables;
///
/// let refusal = Tables::open("(node 1)\n(node 1)\n(open)\n").err().unwrap();
/// assert_eq!((refusal.number(), refusal.line()), (4, Some(2)));
/// assert_eq!(refusal.to_string(), "(no 4 2)");
/// assert!(refusal.meaning().starts_with("Two forms for one node"));
/// ```
#[derive(Clone, Copy, PartialEq, Eq, Debug)]
pub struct Refusal {
    number: u32,
    line: Option<u32>,
}

/// Meaning and remedy of the refusals, the first of 1.
const MEANINGS: [(&str, &str); 18] = [
    (
        "The lent words are not sound tables, or a run has a wrong length.",
        "Something else wrote into the words. Open again; do not repair them by hand.",
    ),
    (
        "The line does not have one of the forms.",
        "Look for spaces, zeros in front, the line feed, the count of parts.",
    ),
    (
        "A number is out of its range.",
        "Correct it; 0 is right only for go, operations, rights and the last number of answer.",
    ),
    (
        "Two forms for one node or process; one row twice in an ask.",
        "Write one form; name each row once.",
    ),
    (
        "A process or node is not listed: the caller, named in the text, or named in one of two texts and listed in \
         neither.",
        "Add the form that is missing.",
    ),
    (
        "More than 16 entries, also of a joined node, 4 items or 16 pairs.",
        "Use a second node; ask over a second port; ask of the other pairs in a second line.",
    ),
    (
        "What is named is not the caller's: not in its c-list, not in its active node (hold), not its own open request \
         (revoke), not there (comes, chain).",
        "Hold it first, go to its node, wait for a loan to come back, or it has been taken back.",
    ),
    (
        "It is of another kind.",
        "go wants a subdirectory; port an operation; ask and close a client end; fetch and answer a server end; \
         register and drop anything but an end.",
    ),
    (
        "A right is missing (hold, register, transfer), or the rights lent are more than the row has.",
        "Lend fewer rights; for an end write 0; else the office must give the right in the text.",
    ),
    (
        "A port is busy with an open request, or an ask would lend an end of its own port.",
        "Wait until the request is answered, revoke it, or use another port.",
    ),
    (
        "The port has no request for this: none open, fetched already (fetch), not fetched (answer with 1).",
        "fetch before an answer with 1; with 0 it needs no fetch.",
    ),
    (
        "A loan forbids it: a lent row cannot be registered, a port whose client end is on loan cannot be closed, and \
         no subdirectory can be held through a lent one.",
        "End the loan first; ask the lender for the inner subdirectory itself.",
    ),
    (
        "The row is in use: another row has it as a source, or the caller is in a node through it.",
        "Revoke or close what was made from it, go 0, then drop.",
    ),
    (
        "A lent end is not back: with another, or listed by a newer request.",
        "Get it back (revoke the loan), or answer with 0.",
    ),
    (
        "The row would be of depth 13.",
        "Make it from a row nearer to the text's.",
    ),
    ("Too few free rows.", "Drop, close, end loans."),
    (
        "128 requests are open.",
        "Answer or revoke some.",
    ),
    ("Too few numbers are left.", "Open again."),
];

/// (rule J9) A refusal that only two texts have.
const TWO_PRIMES: u32 = 20;

impl Refusal {
    /// The refusal of that number, 1 to 18 or 20; of an opening with its line.
    pub fn new(number: u32, line: Option<u32>) -> Option<Refusal> {
        let known = (1..=MEANINGS.len() as u32).contains(&number) || number == TWO_PRIMES;
        known.then_some(Refusal { number, line })
    }

    /// 1 to 18; of two texts also 20.
    pub fn number(&self) -> u32 {
        self.number
    }

    /// (rules K7, J6) The line of a refused opening, or of one of two texts, counted from 1 in it; 0 if a run has a wrong
    /// length. A call has none, nor have two texts that are refused together.
    pub fn line(&self) -> Option<u32> {
        self.line
    }

    /// What it means, in plain words.
    pub fn meaning(&self) -> &'static str {
        self.texts().0
    }

    /// What to do.
    pub fn remedy(&self) -> &'static str {
        self.texts().1
    }

    fn texts(&self) -> (&'static str, &'static str) {
        if self.number == TWO_PRIMES {
            return (
                "Of join alone: a process of both texts has two prime nodes.",
                "Give it one prime node in both texts, or leave it out of one.",
            );
        }
        let at = self.number as usize - 1;
        MEANINGS.get(at).copied().unwrap_or_default()
    }
}

/// As it is printed, without the line feed: `(no 9)`, `(no 4 2)`.
impl fmt::Display for Refusal {
    fn fmt(&self, f: &mut fmt::Formatter) -> fmt::Result {
        match self.line {
            None => write!(f, "(no {})", self.number),
            Some(line) => write!(f, "(no {} {line})", self.number),
        }
    }
}

impl std::error::Error for Refusal {}
