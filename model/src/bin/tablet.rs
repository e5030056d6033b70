//! The program `tablet`: a session from standard input to standard output.

use std::io::{Read, Write};

fn main() -> std::io::Result<()> {
    let mut input = Vec::new();
    std::io::stdin().read_to_end(&mut input)?;
    let output = model::run_session(&input);
    std::io::stdout().write_all(&output)
}
