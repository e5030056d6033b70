//! Sixteen pairs by one pass, beside sixteen single questions: the questions alone, the calls, and the
//! whole calls.

use crate::call_cases::Case;
use crate::calls::performed;
use crate::measure::{About, Layer, Measured};
use crate::on_runs::{measure, On};
use crate::operations::Reads;
use crate::report::Result;
use crate::tables::Benched;
use crate::whole::{called, parts, replied, Reply, RUNS};
use kernel::call_words::{call_words, AnswerWords};
use kernel::entry::Point;
use kernel::layout::{PAIRS, ROWS};
use kernel::{entry, performing, plain, reading, PairMarks};
use model::call::{Call, Pair};
use std::hint::black_box as hidden;

/// Pairs on tables, with what their rows are called.
struct Asked<'a> {
    on: &'a Benched,
    of: &'static str,
    pairs: [Pair; PAIRS],
}

/// Sixteen rows and sixteen requests, spread over the slots in use; and each time the last copy of a
/// chain of loans, of which a single question is dearest.
pub fn on_tables(b: &Benched, by: &mut dyn Measured) {
    let rows: Vec<u32> = b.tables.rows.iter().map(|r| r.number).collect();
    let requests: Vec<u32> = b.tables.requests.iter().map(|q| q.number).collect();
    let asked = |of: &'static str, rows: &[u32]| {
        let pair = |k: usize| Pair {
            row: spread(rows, k),
            request: spread(&requests, k),
        };
        let pairs = std::array::from_fn(pair);
        Asked { on: b, of, pairs }
    };
    let spread_out = asked("16 rows", &rows);
    for asked in [&spread_out, &asked("a deep copy", &[rows[b.loan]])] {
        asked.one_pass(by);
        asked.questions(by);
        asked.calls(by);
        asked.whole_calls(by);
    }
    parts(by, &spread_out.case("comesall, 16 pairs"));
}

/// One of sixteen numbers at equal distances, the last among them.
fn spread(numbers: &[u32], k: usize) -> u32 {
    numbers[((k + 1) * numbers.len() - 1) / PAIRS]
}

fn marked(
    question: impl Fn(&[u32], &[u32; PAIRS], &mut PairMarks),
    t: &[u32],
    requests: &[u32; PAIRS],
) -> PairMarks {
    let mut marks = [0; ROWS + 1];
    question(t, requests, &mut marks);
    marks
}

/// What is told of each pair by itself.
#[inline]
fn each<A>(of: &[A; PAIRS], mut told: impl FnMut(&A) -> u8) -> [u8; PAIRS] {
    std::array::from_fn(|k| told(&of[k]))
}

/// The byte after the first word of the reply: 1 or 0, or 7 of a refusal.
fn value((reply, _): Reply) -> u8 {
    reply[4]
}

impl Asked<'_> {
    fn all(&self) -> Call {
        let pairs = self.pairs.to_vec();
        Call::ComesAll { pairs }
    }

    fn singles(&self) -> [Call; PAIRS] {
        self.pairs
            .map(|Pair { row, request }| Call::Comes { row, request })
    }

    fn case(&self, name: &str) -> Case {
        Case {
            name: name.to_string(),
            tables: self.on.tables.clone(),
            line: printed(&self.all()),
            refusal: 0,
        }
    }

    fn about(&self, name: &str, bytes: usize) -> About {
        About {
            layer: Layer::Pairs,
            size: self.on.size(),
            name: format!("{name}, {}", self.of),
            bytes,
            calls: 20,
        }
    }

    fn runs(&self, name: &str, reads: usize) -> On<'_> {
        On {
            layer: Layer::Pairs,
            name: format!("{name}, {}", self.of),
            tables: &self.on.tables,
            reads,
        }
    }

    /// Source, second source and request of each row, 2 bytes of marks a row.
    fn one_pass(&self, by: &mut dyn Measured) {
        let t = self.on.words.as_slice();
        let requests = self.pairs.map(|pair| pair.request);
        let proved = || marked(reading::mark_pairs, hidden(t), hidden(&requests));
        let plain = || marked(plain::questions::mark_pairs, hidden(t), hidden(&requests));
        assert!(proved() == plain());
        let about = self.about("one pass", 14 * self.on.rows);
        by.measure(about, &mut Reads(proved, plain));
    }

    fn questions(&self, by: &mut dyn Measured) {
        let t = self.on.words.as_slice();
        let slot = |row: u32| reading::row_slot(t, row).expect("a row that stands");
        let asked = self.pairs.map(|pair| (slot(pair.row), pair.request));
        let proved = || each(hidden(&asked), |(e, q)| reading::comes(t, *e, *q).into());
        let plain = || {
            each(hidden(&asked), |(e, q)| {
                plain::questions::comes(t, *e, *q).into()
            })
        };
        assert_eq!(proved(), plain());
        let about = self.about("16 questions", 12 * PAIRS);
        by.measure(about, &mut Reads(proved, plain));
    }

    fn calls(&self, by: &mut dyn Measured) {
        let words = |call: &Call| call_words(call).expect("its words");
        let (all, singles) = (words(&self.all()), self.singles().each_ref().map(words));
        measure(
            by,
            self.runs("comesall", 12 * self.on.rows),
            |t, p| performed(performing::perform, t, p, &all),
            |t, p| performed(plain::calls::perform, t, p, &all),
        );
        let told = |answer: AnswerWords| (10 * answer[0] + answer[1]) as u8;
        measure(
            by,
            self.runs("16 times comes", 12 * PAIRS),
            |t, p| each(&singles, |w| told(performed(performing::perform, t, p, w))),
            |t, p| {
                each(&singles, |w| {
                    told(performed(plain::calls::perform, t, p, w))
                })
            },
        );
    }

    fn whole_calls(&self, by: &mut dyn Measured) {
        let whole = self.case(&format!("comesall, whole, {}", self.of));
        called(by, Layer::Pairs, &whole, &whole.line);
        let lines = self.singles().each_ref().map(printed);
        let told = |point: Point, t: &mut [u32], p: &mut [u32]| {
            each(&lines, |line| value(replied(point, t, p, line.as_bytes())))
        };
        let read = PAIRS * RUNS + lines.concat().len();
        measure(
            by,
            self.runs("16 times comes, whole", read),
            |t, p| told(entry::call, t, p),
            |t, p| told(plain::entry::call, t, p),
        );
    }
}

fn printed(call: &Call) -> String {
    String::from_utf8(call.print()).expect("a line")
}

/// What one pass for all pairs takes of what each pair by itself takes.
pub fn beside_each(results: &[Result]) -> String {
    let of_layer = |r: &&Result| r.line.about.layer == Layer::Pairs;
    let measured: Vec<&Result> = results.iter().filter(of_layer).collect();
    let mut text = "| rows | requests | pairs together | instructions | each by itself | ratio |\n\
                    |---:|---:|---|---:|---:|---:|\n"
        .to_string();
    for two in measured.chunks_exact(2) {
        let (Some(all), Some(each)) = (two[0].counts, two[1].counts) else {
            continue;
        };
        let (size, name) = (two[0].line.about.size, &two[0].line.about.name);
        let (all, each) = (all.proved, each.proved);
        let (rows, requests) = (size.rows, size.requests);
        let ratio = all / each;
        text += &format!("| {rows} | {requests} | {name} | {all:.0} | {each:.0} | {ratio:.2} |\n");
    }
    text + "\n"
}
