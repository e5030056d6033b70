//! How often each call was accepted and refused with each number, beside what
//! the manual says that it may answer.

use kernel::call_words::counted_as;
use model::call::Call;
use std::io::Write;

/// The refusals 7 to 18 that each call has on sound tables (docs/MANUAL.md,
/// chapter 4), by the name under which it is counted. A register has no 15:
/// the row itself is at least as deep (rule register-15).
const HAS: [(&str, &[usize]); 14] = [
    ("go", &[7, 8]),
    ("hold", &[7, 9, 12, 15, 16, 18]),
    ("register", &[7, 8, 9, 12, 16, 18]),
    ("drop", &[7, 8, 13]),
    ("port", &[7, 8, 15, 16, 18]),
    ("close", &[7, 8, 12]),
    ("ask", &[7, 8, 9, 10, 15, 16, 17, 18]),
    ("fetch", &[7, 8, 11]),
    ("answer 1", &[7, 8, 10, 11, 14]),
    ("answer 0", &[7, 8, 11]),
    ("revoke", &[7]),
    ("comes", &[7]),
    ("chain", &[7]),
    ("comesall", &[]),
];

const FIRST: usize = 7;
const LAST: usize = 18;

/// The counts of each call: at 0 those accepted, else by the refusal.
#[derive(Default)]
pub struct Refused {
    counts: [[u64; LAST + 1]; HAS.len()],
}

impl Refused {
    pub fn count(&mut self, call: &Call, refusal: Option<u32>) {
        let name = counted_as(call);
        let at = HAS.iter().position(|(of, _)| *of == name);
        let counts = &mut self.counts[at.expect("a call that is counted")];
        counts[refusal.unwrap_or(0) as usize] += 1;
    }

    /// The refusal of the only call that was counted, 0 for none.
    pub fn only(&self) -> u32 {
        assert_eq!(self.calls(), 1);
        let refusal = |counts: &[u64; LAST + 1]| counts.iter().position(|count| *count == 1);
        self.counts.iter().find_map(refusal).expect("one") as u32
    }

    pub fn calls(&self) -> u64 {
        self.counts.iter().flatten().sum()
    }

    /// Every call was accepted and refused in each way so often, and in no
    /// other way.
    pub fn check(&self, least: u64) {
        for (counts, (name, has)) in self.counts.iter().zip(HAS) {
            for (k, count) in counts.iter().enumerate() {
                let may = k == 0 || has.contains(&k);
                assert!(!may || *count >= least, "{name} {k}: {count} times");
                assert!(may || *count == 0, "{name} {k}: {count} times");
            }
        }
    }

    /// A line a call, a column a refusal. It is shown for tests that pass too.
    pub fn print(&self, about: &str) {
        let mut text = format!("{about}: {} calls\n{:>9} {:>8}", self.calls(), "", "ok");
        for k in FIRST..=LAST {
            text += &format!(" {k:>7}");
        }
        for (counts, (name, has)) in self.counts.iter().zip(HAS) {
            text += &format!("\n{name:>9} {:>8}", counts[0]);
            for k in FIRST..=LAST {
                let count = match has.contains(&k) {
                    true => counts[k].to_string(),
                    false => "-".to_string(),
                };
                text += &format!(" {count:>7}");
            }
        }
        writeln!(std::io::stdout(), "\n{text}").expect("it is printed");
    }
}
