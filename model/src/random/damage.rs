//! Damaged texts: bytes flipped, cut out, doubled or added, lines made too
//! long, numbers made odd; lines that are nearly an answer, a chain or a comesall.

use super::prng::Rng;

/// Bytes that a reader may go wrong on.
const BYTES: &[u8] = b"() \n0123456789abz\t\r\x00-+A\xff";

/// Numbers that a reader may go wrong on.
const NUMBERS: [&str; 20] = [
    "0",
    "00",
    "01",
    "8",
    "33",
    "65",
    "256",
    "1000000",
    "1000001",
    "4294967293",
    "4294967294",
    "4294967295",
    "4294967296",
    "4294967298",
    "42949672950",
    "18446744073709551616",
    "18446744073709551617",
    "18446744073709551620",
    "-1",
    "99999999999999999999999999999999999999999999",
];

/// The words and last parts of answers that are none: the last number missing, doubled,
/// bracketed or odd, the words that answers had before.
const ANSWERS: [(&str, &str); 16] = [
    ("answer", ""),
    ("answer", " "),
    ("answer", " 00"),
    ("answer", " 01"),
    ("answer", " 1 1"),
    ("answer", " 1 0 1"),
    ("answer", " (1)"),
    ("answer", " (1 0)"),
    ("answer", " one"),
    ("answer", "  1"),
    ("answer", " 4294967297"),
    ("Answer", " 1"),
    ("reply", ""),
    ("refuse", ""),
    ("reply", " 1"),
    ("refuse", " 0"),
];

/// A line that is nearly an answer of this caller at this end.
pub fn garbled_answer(rng: &mut Rng, caller: u32, end: u32) -> Vec<u8> {
    let (word, last) = rng.pick(&ANSWERS).unwrap_or(("answer", ""));
    format!("({caller} {word} {end}{last})\n").into_bytes()
}

/// Lines that are no question for the chain of a row, which E stands for: with a caller, the number
/// missing, doubled, bracketed, odd or past 32 bits, another word.
const CHAINS: [&str; 18] = [
    "(chain)",
    "(chain )",
    "(1 chain E)",
    "(1 chain)",
    "(chain E E)",
    "(chain E 1)",
    "(chain (E))",
    "(chain E ())",
    "(chain 0E)",
    "(chain  E)",
    "(chain E )",
    "(chainE)",
    "(chain -E)",
    "(chain e)",
    "(chains E)",
    "(Chain E)",
    "(E chain)",
    "(chain WRAPPED)",
];

/// A line that is nearly a question for the chain of this row.
pub fn garbled_chain(rng: &mut Rng, row: u32) -> Vec<u8> {
    let line = rng.pick(&CHAINS).unwrap_or("(chain)");
    let wrapped = (1u64 << 32) + u64::from(row);
    let line = line.replace("WRAPPED", &wrapped.to_string());
    (line.replace('E', &row.to_string()) + "\n").into_bytes()
}

/// Lines that are no comesall of a row and a request, which E and Q stand for, W and V the same past 32
/// bits: without pairs, with a caller, a pair that is none, spaces and brackets, another word.
const COMESALLS: [&str; 27] = [
    "(comesall)",
    "(comesall )",
    "(1 comesall (E Q))",
    "(comesall E Q)",
    "(comesall ())",
    "(comesall (E))",
    "(comesall (E Q Q))",
    "(comesall ((E Q)))",
    "(comesall (E Q) E)",
    "(comesall (E Q) E Q)",
    "(comesall (E Q) ())",
    "(comesall (E Q) (E))",
    "(comesall (E Q)(E Q))",
    "(comesall (E Q) )",
    "(comesall  (E Q))",
    "(comesall(E Q))",
    "(comesall (E  Q))",
    "(comesall (E Q ))",
    "(comesall (E Q) (0E Q))",
    "(comesall (E -))",
    "(comesall (W Q))",
    "(comesall (E Q) (E V))",
    "(comesalls (E Q))",
    "(comesal (E Q))",
    "(Comesall (E Q))",
    "(comes all (E Q))",
    "(comes (E Q))",
];

/// A line that is nearly a comesall of this row and this request.
pub fn garbled_comesall(rng: &mut Rng, row: u32, request: u32) -> Vec<u8> {
    let mut line = rng.pick(&COMESALLS).unwrap_or("(comesall)").to_string();
    let past = |number: u32| (1u64 << 32) + u64::from(number);
    let numbers: [(char, u64); 4] = [
        ('E', row.into()),
        ('Q', request.into()),
        ('W', past(row)),
        ('V', past(request)),
    ];
    for (letter, number) in numbers {
        line = line.replace(letter, &number.to_string());
    }
    (line + "\n").into_bytes()
}

/// The text damaged once to three times.
pub fn damage(rng: &mut Rng, text: &[u8]) -> Vec<u8> {
    let mut damaged = text.to_vec();
    for _ in 0..rng.between(1, 3) {
        damage_once(rng, &mut damaged);
    }
    damaged
}

fn damage_once(rng: &mut Rng, text: &mut Vec<u8>) {
    let at = rng.below(text.len() + 1);
    let end = (at + rng.below(12)).min(text.len());
    match rng.below(10) {
        0 => flip(rng, text, at),
        1 => drop(text.drain(at..end)),
        2 => {
            let piece = text[at..end].to_vec();
            insert(text, at, &piece);
        }
        3 => text.truncate(at),
        4 => {
            let byte = rng.pick(BYTES).unwrap_or(b' ');
            insert(text, at, &[byte]);
        }
        5 => {
            let byte = rng.pick(b"0 9a(").unwrap_or(b'0');
            let count = rng.below(400);
            insert(text, at, &vec![byte; count]);
        }
        6 | 7 => odd_number(rng, text, at),
        8 => double_line(text, at),
        _ => {
            let parts = rng.pick(&[" (op 1 1 1)", " (1 1)", " 1", "(", ")"]);
            insert(text, at, parts.unwrap_or(" ").as_bytes());
        }
    }
}

fn insert(text: &mut Vec<u8>, at: usize, bytes: &[u8]) {
    text.splice(at..at, bytes.iter().copied());
}

fn flip(rng: &mut Rng, text: &mut [u8], at: usize) {
    if let Some(byte) = text.get_mut(at) {
        *byte = match rng.below(2) {
            0 => *byte ^ (1 << rng.below(8)),
            _ => rng.pick(BYTES).unwrap_or(0),
        };
    }
}

/// The first number at or after a position becomes another.
fn odd_number(rng: &mut Rng, text: &mut Vec<u8>, at: usize) {
    let digit = |b: &u8| b.is_ascii_digit();
    let Some(start) = text[at..].iter().position(digit).map(|n| n + at) else {
        return;
    };
    let length = text[start..].iter().take_while(|b| digit(b)).count();
    let number = rng.pick(&NUMBERS).unwrap_or("0");
    text.splice(start..start + length, number.bytes());
}

/// The line that a position is in stands twice.
fn double_line(text: &mut Vec<u8>, at: usize) {
    let feed = |b: &u8| *b == b'\n';
    let start = text[..at].iter().rposition(feed).map_or(0, |n| n + 1);
    let length = text[start..].iter().position(feed).map(|n| n + 1);
    let end = length.map_or(text.len(), |n| start + n);
    let line = text[start..end].to_vec();
    insert(text, start, &line);
}
