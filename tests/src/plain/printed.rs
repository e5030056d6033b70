//! Answers as the bytes of a reply.

use super::calls::{Answer, Outcome};
use crate::call_words::{NO, YES};

/// A reply that grows from the front.
pub struct Printed<'a> {
    reply: &'a mut [u8],
    length: usize,
}

impl<'a> Printed<'a> {
    pub fn on(reply: &'a mut [u8]) -> Printed<'a> {
        Printed { reply, length: 0 }
    }

    pub fn bytes(&mut self, bytes: &[u8]) {
        self.reply[self.length..self.length + bytes.len()].copy_from_slice(bytes);
        self.length += bytes.len();
    }

    /// A space and a number.
    pub fn number(&mut self, number: u32) {
        let mut digits = [0; 11];
        let mut at = digits.len();
        let mut rest = number;
        loop {
            at -= 1;
            digits[at] = b'0' + (rest % 10) as u8;
            rest /= 10;
            if rest == 0 {
                break;
            }
        }
        at -= 1;
        digits[at] = b' ';
        self.bytes(&digits[at..]);
    }

    /// Those that are not 0.
    fn numbers(&mut self, numbers: &[u32]) {
        for number in numbers.iter().filter(|number| **number != 0) {
            self.number(*number);
        }
    }

    /// The length of the reply.
    pub fn end(mut self) -> usize {
        self.bytes(b")\n");
        self.length
    }

    pub fn outcome(mut self, outcome: &Outcome) -> usize {
        match *outcome {
            Err(refusal) => {
                self.bytes(b"(no");
                self.number(refusal);
                return self.end();
            }
            Ok(ref answer) => {
                self.bytes(b"(ok");
                self.answer(answer);
            }
        }
        self.end()
    }

    fn answer(&mut self, answer: &Answer) {
        match *answer {
            Answer::Done => self.number(0),
            Answer::Made(number) => self.number(number),
            Answer::Told(yes) => self.number(u32::from(yes)),
            Answer::Fetched(request, items) => {
                self.number(request);
                self.numbers(&items);
            }
            Answer::Chained(rows) => self.numbers(&rows),
            Answer::ToldAll(told) => {
                for value in told.into_iter().filter(|value| *value != 0) {
                    self.value(value);
                }
            }
        }
    }

    /// A space and what is told of a pair.
    fn value(&mut self, told: u32) {
        self.bytes(match told {
            NO => b" 0",
            YES => b" 1",
            _ => b" -",
        });
    }

    /// The refusal of an opening, with its line.
    pub fn refused_at(mut self, refusal: u32, line: u32) -> usize {
        self.bytes(b"(no");
        self.number(refusal);
        self.number(line);
        self.end()
    }
}
