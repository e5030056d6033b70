//! The program `join`: two opening texts from standard input, the joined one to standard output.

use std::io::{Read, Write};

fn main() -> std::io::Result<()> {
    let mut input = Vec::new();
    std::io::stdin().read_to_end(&mut input)?;
    let output = model::join::join(&input);
    std::io::stdout().write_all(&output)
}
