//! Tables, call lines and answers with every number of a row or request raised by the same.
//! 0, which names nothing, stays 0.

use crate::answer::Answer;
use crate::call::{read_call, Call};
use crate::limits::{LAST_NUMBER, LINE_BYTES};
use crate::tables::Tables;

/// The most that the numbers of tables can be raised by.
pub fn room(tables: &Tables) -> u32 {
    LAST_NUMBER + 1 - tables.next
}

/// The tables with all numbers raised, the next one too; there must be room.
pub fn shift_tables(tables: &Tables, by: u32) -> Tables {
    let mut shifted = tables.clone();
    let raise = |number: &mut u32| {
        if *number != 0 {
            *number += by;
        }
    };
    for row in &mut shifted.rows {
        if row.is_end() {
            raise(&mut row.object);
        }
        raise(&mut row.number);
        raise(&mut row.source);
        raise(&mut row.via);
        raise(&mut row.request);
    }
    for request in &mut shifted.requests {
        raise(&mut request.number);
        raise(&mut request.port);
        request.items.iter_mut().flatten().for_each(raise);
    }
    for record in &mut shifted.processes {
        raise(&mut record.through);
    }
    shifted.next += by;
    shifted
}

/// The tables raised to the limit, their next number so much below the last that it can be.
pub fn near_limit(tables: &Tables, below: u32) -> Tables {
    let room = room(tables);
    shift_tables(tables, room - room.min(below))
}

/// The line with the numbers that its call names raised. One of bad form stays as it is.
pub fn shift_line(line: &[u8], by: u32) -> Vec<u8> {
    match read_call(line) {
        Some(call) => call.renumbered(|n| shift_number(n, by)).print(),
        None => line.to_vec(),
    }
}

/// The answer to a line, with the numbers raised that it gives. `comes` answers 1 or 0, no number. A
/// line that the raised numbers make too long is 2.
pub fn shift_answer(line: &[u8], answer: &Answer, by: u32) -> Answer {
    if shift_line(line, by).len() > LINE_BYTES + 1 {
        return Answer::No(2);
    }
    match (read_call(line), answer) {
        (Some(Call::Comes { .. }), _) => answer.clone(),
        (_, Answer::Ok(numbers)) => {
            Answer::Ok(numbers.iter().map(|n| shift_number(*n, by)).collect())
        }
        _ => answer.clone(),
    }
}

/// What is out of range stays so. A number that would leave the range names no row or request,
/// and becomes one below all of them.
fn shift_number(number: u32, by: u32) -> u32 {
    match number {
        0 => 0,
        n if n > LAST_NUMBER => n,
        n if n <= LAST_NUMBER - by => n + by,
        n => n - (LAST_NUMBER - by),
    }
}
