//! An answer: accepted with its values, or a refusal; and the printed line that it is read from.

use crate::refusal::Refusal;
use std::fmt;

/// What a call or an opening is answered.
#[derive(Clone, PartialEq, Eq, Debug)]
pub enum Answer {
    /// (rule K4) Accepted: the new number, or 0 if none is made; for `fetch` the request's number, then its items; for
    /// `comes` 1 or 0; for `chain` the rows from one of the text to the row asked about; for `comesall` 1, 0 or, as
    /// `None`, `-` for each pair.
    // read from the printed line, which does not say what was called: so one type for the values of all calls
    Ok(Vec<Option<u32>>),
    /// (rule K5) Refused: nothing was changed.
    No(Refusal),
}

impl Answer {
    /// Whether the call was accepted.
    pub fn accepted(&self) -> bool {
        matches!(self, Answer::Ok(_))
    }

    /// The first number of an accepted call.
    ///
    /// ```
    /// # use tablet::Tables;
    /// let mut tables = Tables::open("(node 1 (op 1 0 7))\n(process 1 1)\n(open)\n").unwrap();
    /// assert_eq!(tables.call("(1 hold 1)\n").number(), Some(2));
    /// assert_eq!(tables.call("(1 hold 9)\n").number(), None);
    /// ```
    pub fn number(&self) -> Option<u32> {
        match self {
            Answer::Ok(values) => values.first().copied().flatten(),
            Answer::No(_) => None,
        }
    }

    /// All numbers of an accepted call; none if a value is `-`, which only a `comesall` has.
    ///
    /// ```
    /// # use tablet::Tables;
    /// let mut tables = Tables::open("(node 1 (op 1 0 7))\n(process 1 1)\n(open)\n").unwrap();
    /// assert_eq!(tables.call("(chain 1)\n").numbers(), Some(vec![1]));
    /// assert_eq!(tables.call("(chain 2)\n").numbers(), None);
    /// assert_eq!(tables.call("(comesall (1 2))\n").numbers(), None);
    /// ```
    pub fn numbers(&self) -> Option<Vec<u32>> {
        match self {
            Answer::Ok(values) => values.iter().copied().collect(),
            Answer::No(_) => None,
        }
    }

    /// The refusal, if it is one.
    pub fn refusal(&self) -> Option<Refusal> {
        match self {
            Answer::Ok(_) => None,
            Answer::No(refusal) => Some(*refusal),
        }
    }

    /// Reads a printed line, with its line feed; none if it is no answer.
    ///
    /// ```
    /// use tablet::Answer;
    /// assert_eq!(Answer::read(b"(ok 7 8)\n"), Some(Answer::Ok(vec![Some(7), Some(8)])));
    /// assert_eq!(Answer::read(b"(ok 1 -)\n"), Some(Answer::Ok(vec![Some(1), None])));
    /// assert_eq!(Answer::read(b"(no 4 2)\n").unwrap().refusal().unwrap().line(), Some(2));
    /// assert_eq!(Answer::read(b"(no 19)\n"), None);
    /// assert_eq!(Answer::read(b"(no -)\n"), None);
    /// ```
    pub fn read(line: &[u8]) -> Option<Answer> {
        let text = std::str::from_utf8(line).ok()?;
        let mut parts = text.strip_prefix('(')?.strip_suffix(")\n")?.split(' ');
        let word = parts.next()?;
        let values: Vec<Option<u32>> = parts.map(value).collect::<Option<_>>()?;
        match (word, values.as_slice()) {
            ("ok", [_, ..]) => Some(Answer::Ok(values)),
            ("no", [Some(k)]) => Refusal::new(*k, None).map(Answer::No),
            ("no", [Some(k), Some(line)]) => Refusal::new(*k, Some(*line)).map(Answer::No),
            _ => None,
        }
    }
}

/// A number or `-`; none for any other text.
fn value(text: &str) -> Option<Option<u32>> {
    match text {
        "-" => Some(None),
        number => number.parse().ok().map(Some),
    }
}

/// As it is printed, without the line feed: `(ok 7 8)`, `(ok 1 -)`, `(no 9)`.
impl fmt::Display for Answer {
    fn fmt(&self, f: &mut fmt::Formatter) -> fmt::Result {
        let values = match self {
            Answer::Ok(values) => values,
            Answer::No(refusal) => return write!(f, "{refusal}"),
        };
        write!(f, "(ok")?;
        for value in values {
            match value {
                Some(number) => write!(f, " {number}")?,
                None => write!(f, " -")?,
            }
        }
        write!(f, ")")
    }
}
