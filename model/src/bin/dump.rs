//! The program `dump`: as `tablet`, with the tables after every answer.

use std::io::{Read, Write};

fn main() -> std::io::Result<()> {
    let mut input = Vec::new();
    std::io::stdin().read_to_end(&mut input)?;
    let output = model::session::dump_session(&input);
    std::io::stdout().write_all(&output)
}
