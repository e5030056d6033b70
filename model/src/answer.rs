//! Answers and how they are printed.

#[derive(Clone, PartialEq, Eq, Debug)]
pub enum Answer {
    /// (rule K4) `(ok n)`, n the new number or 0; fetch and chain give more numbers.
    Ok(Vec<u32>),
    /// (rules K4, comesall-ok-1, comesall-ok-2) `(ok 1 0 -)`: a value for each pair of a comesall, none
    /// for a pair of which `comes` is 7.
    Values(Vec<Option<bool>>),
    /// `(no k)`.
    No(u32),
    /// (rule K7) The opening answers `(no k line)`.
    NoAt(u32, u32),
}

impl Answer {
    /// The accepted answer with one number.
    pub fn ok(number: u32) -> Answer {
        Answer::Ok(vec![number])
    }

    pub fn accepted(&self) -> bool {
        matches!(self, Answer::Ok(_) | Answer::Values(_))
    }

    /// The refusal's number, if it is one.
    pub fn refusal(&self) -> Option<u32> {
        match self {
            Answer::Ok(_) | Answer::Values(_) => None,
            Answer::No(k) | Answer::NoAt(k, _) => Some(*k),
        }
    }

    /// The printed line with its line feed.
    pub fn print(&self) -> Vec<u8> {
        let text = match self {
            Answer::Ok(numbers) => {
                let numbers = numbers.iter().map(|n| format!(" {n}"));
                format!("(ok{})\n", numbers.collect::<String>())
            }
            Answer::Values(values) => {
                let values = values.iter().map(|v| print_value(*v));
                format!("(ok{})\n", values.collect::<String>())
            }
            Answer::No(k) => format!("(no {k})\n"),
            Answer::NoAt(k, line) => format!("(no {k} {line})\n"),
        };
        text.into_bytes()
    }
}

/// A value with the space before it.
fn print_value(value: Option<bool>) -> &'static str {
    match value {
        Some(true) => " 1",
        Some(false) => " 0",
        None => " -",
    }
}
