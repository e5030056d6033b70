//! The lent words and the model's tables, which take the same calls.

use super::difference::{shown, Difference};
use crate::entry::{Point, REPLY_BYTES};
use crate::layout::{PROCESS_WORDS, TABLES_WORDS};
use model::random::shifted::near_limit;
use model::session::{call_sound, open};
use model::words::encode;
use model::{broken, Answer, Tables};

/// The entry points that are compared with the model.
#[derive(Clone, Copy)]
pub struct Points {
    pub open: Point,
    pub call: Point,
}

pub struct Both {
    call: Point,
    words: Vec<u32>,
    records: Vec<u32>,
    pub tables: Tables,
}

impl Both {
    /// Opened by the text, whatever the words held.
    pub fn opened(points: Points, text: &[u8]) -> Result<Both, Difference> {
        let (tables, answer, _) = open(text);
        let mut both = Both {
            call: points.call,
            words: vec![7; TABLES_WORDS],
            records: vec![7; PROCESS_WORDS],
            tables,
        };
        both.answered(points.open, text, &answer)?;
        both.words_agree(text)?;
        Ok(both)
    }

    /// One call on both; the replies are the same.
    pub fn call(&mut self, line: &[u8]) -> Result<Answer, Difference> {
        let answer = call_sound(&mut self.tables, line);
        self.answered(self.call, line, &answer)?;
        Ok(answer)
    }

    fn answered(&mut self, point: Point, bytes: &[u8], answer: &Answer) -> Result<(), Difference> {
        let mut reply = [0; REPLY_BYTES];
        let length = point(&mut self.words, &mut self.records, bytes, &mut reply);
        let (kernel, model) = (&reply[..length], answer.print());
        if kernel == model {
            return Ok(());
        }
        let (kernel, model) = (shown(kernel), shown(&model));
        Err(Difference::new("replies", bytes, kernel, model))
    }

    /// Every word of both runs is that of the model's tables.
    pub fn words_agree(&self, last: &[u8]) -> Result<(), Difference> {
        let (words, records) = encode(&self.tables).expect("sound tables fit");
        if self.words == words && self.records == records {
            return Ok(());
        }
        let kernel = self.words.iter().chain(&self.records);
        let mut pairs = kernel.zip(words.iter().chain(&records)).enumerate();
        let (at, (kernel, model)) = pairs.find(|(_, (a, b))| a != b).expect("other words");
        let word = |word: &u32| format!("word {at} is {word}");
        Err(Difference::new("words", last, word(kernel), word(model)))
    }

    /// The model finds them sound, as the kernel did before each call.
    pub fn is_sound(&self, last: &[u8]) -> Result<(), Difference> {
        let broken = broken(&self.tables);
        if broken.is_empty() {
            return Ok(());
        }
        let (kernel, model) = ("sound".to_string(), format!("{broken:?}"));
        Err(Difference::new("soundness", last, kernel, model))
    }

    /// All numbers are moved up, in the words and in the model's tables, until so many are left.
    pub fn leave(&mut self, left: u32) {
        self.tables = near_limit(&self.tables, left);
        (self.words, self.records) = encode(&self.tables).expect("sound tables fit");
    }
}
