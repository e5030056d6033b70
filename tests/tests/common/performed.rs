//! Calls on sound tables, compared with the model: the answer, and every word
//! of both runs after.

use super::refused::Refused;
use super::{words, Lent};
use kernel::call_words::{answer_words, call_words, AnswerWords, CallWords, ANSWER_WORDS};
use model::call::{read_call, Call};
use model::effects::perform;
use model::refusals::refusal;
use model::{Answer, Tables};

/// What makes a call on words.
pub trait Made {
    /// The call of that line, made on the words; its answer is compared with
    /// the model's. No if there is no way to make it.
    fn makes(&self, asked: &Asked, lent: &mut Lent) -> bool;

    /// A line that is no call.
    fn bad_form(&self, line: &[u8], lent: &mut Lent);
}

/// A call, its line, the tables before it, and the model's answer.
pub struct Asked<'a> {
    pub before: &'a Tables,
    pub call: &'a Call,
    pub line: &'a [u8],
    pub answer: Answer,
}

/// What stands in the words of an answer before the call.
pub const UNSAID: AnswerWords = [9; ANSWER_WORDS];

/// A call in words, in place.
pub type Perform = fn(&mut [u32], &mut [u32], &CallWords, &mut AnswerWords);

impl Made for Perform {
    /// Not one that the reading of its line refuses, or has no words.
    fn makes(&self, asked: &Asked, lent: &mut Lent) -> bool {
        let read = asked.answer.refusal().is_none_or(|k| k >= 7);
        let Some(call) = call_words(asked.call).filter(|_| read) else {
            return false;
        };
        let mut said = UNSAID;
        self(&mut lent.0, &mut lent.1, &call, &mut said);
        let expected = answer_words(asked.before, asked.call, &asked.answer);
        assert_eq!(said, expected, "{}", about(asked));
        true
    }

    fn bad_form(&self, _: &[u8], _: &mut Lent) {}
}

pub fn about(asked: &Asked) -> String {
    format!("{:?} on\n{}", asked.call, asked.before.print())
}

/// The model's answer to a call, and the tables after one that is accepted.
fn by_model(tables: &Tables, call: &Call) -> (Answer, Option<Tables>) {
    if let Some(k) = refusal(tables, call) {
        return (Answer::No(k), None);
    }
    let mut after = tables.clone();
    let answer = perform(&mut after, call).expect("no refusal applies");
    (answer, Some(after))
}

/// Tables and the words that stand for them, which take the same calls.
pub struct Pair {
    pub tables: Tables,
    lent: Lent,
}

impl Pair {
    pub fn new(tables: Tables) -> Pair {
        let lent = words(&tables);
        Pair { tables, lent }
    }

    /// The call made on both; the pair after one that is accepted.
    fn compare(
        &self,
        made: &dyn Made,
        call: &Call,
        line: &[u8],
        seen: &mut Refused,
        lent: &mut Lent,
    ) -> Option<Pair> {
        let (answer, after) = by_model(&self.tables, call);
        let asked = Asked {
            before: &self.tables,
            call,
            line,
            answer,
        };
        if !made.makes(&asked, lent) {
            return None;
        }
        let after = after.map(Pair::new);
        let expected = after.as_ref().map_or(&self.lent, |after| &after.lent);
        assert!(lent.0 == expected.0, "the tables after {}", about(&asked));
        assert!(lent.1 == expected.1, "the records after {}", about(&asked));
        seen.count(call, asked.answer.refusal());
        after
    }

    /// The line read, and the call made on both; one that is too long is a bad form.
    fn answered(
        &self,
        made: &dyn Made,
        line: &[u8],
        seen: &mut Refused,
        lent: &mut Lent,
    ) -> Option<Pair> {
        if let Some(call) = read_call(line) {
            return self.compare(made, &call, line, seen, lent);
        }
        made.bad_form(line, lent);
        assert!(*lent == self.lent, "words changed by a bad form");
        None
    }

    /// One line after the others.
    pub fn line(&mut self, made: &dyn Made, line: &[u8], seen: &mut Refused) {
        let mut lent = self.lent.clone();
        if let Some(after) = self.answered(made, line, seen, &mut lent) {
            *self = after;
        }
    }

    /// Each call by itself, on these tables.
    pub fn each(&self, made: &dyn Made, calls: &[Call], seen: &mut Refused) {
        let mut lent = self.lent.clone();
        for call in calls {
            let accepted = self.answered(made, &call.print(), seen, &mut lent);
            if accepted.is_some() {
                lent.0.copy_from_slice(&self.lent.0);
                lent.1.copy_from_slice(&self.lent.1);
            }
        }
    }
}
