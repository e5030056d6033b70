//! The program `holders`: a session from standard input, the page of its rows to standard output.

use std::io::{Read, Write};

fn main() -> std::io::Result<()> {
    let mut input = Vec::new();
    std::io::stdin().read_to_end(&mut input)?;
    let page = model::page::session_page(&input);
    std::io::stdout().write_all(&page)
}
