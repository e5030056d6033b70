//! What the calls of one part of a season came to.

use crate::call_words::counted_as;
use model::call::read_call;
use model::{Answer, Tables};
use std::collections::BTreeMap;
use std::fmt;

#[derive(Default)]
pub struct Report {
    pub calls: u64,
    /// Calls by their refusal; at 0 those accepted.
    pub refused: [u64; 19],
    /// Those accepted, by name, answer by its last number.
    pub accepted: BTreeMap<String, u64>,
    /// How often all words were compared.
    pub compared: u64,
    pub greatest: u32,
    most_rows: usize,
    most_requests: usize,
}

impl Report {
    pub fn count(&mut self, line: &[u8], answer: &Answer, after: &Tables) {
        let refusal = answer.refusal().unwrap_or(0);
        self.calls += 1;
        self.refused[refusal as usize] += 1;
        if let Some(call) = read_call(line).filter(|_| answer.accepted()) {
            *self.accepted.entry(counted_as(&call)).or_default() += 1;
        }
        self.greatest = after.next - 1;
        self.most_rows = self.most_rows.max(after.rows.len());
        self.most_requests = self.most_requests.max(after.requests.len());
    }
}

impl fmt::Display for Report {
    fn fmt(&self, f: &mut fmt::Formatter) -> fmt::Result {
        let refused = self.refused.iter().enumerate().skip(1);
        let refused = refused.map(|(k, n)| format!("{k}: {n}"));
        let accepted = self.accepted.iter().map(|(word, n)| format!("{word}: {n}"));
        writeln!(f, "{} calls, {} accepted", self.calls, self.refused[0])?;
        writeln!(f, "  accepted {}", accepted.collect::<Vec<_>>().join(", "))?;
        writeln!(f, "  refused {}", refused.collect::<Vec<_>>().join(", "))?;
        let (rows, requests) = (self.most_rows, self.most_requests);
        writeln!(f, "  at most {rows} rows and {requests} requests at once")?;
        writeln!(f, "  all words compared {} times", self.compared)?;
        write!(f, "  greatest number given: {}", self.greatest)
    }
}
