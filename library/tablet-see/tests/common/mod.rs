//! What the tests of the program share.

use tablet_see::run::{run, Problem};

/// What a command line prints on an input.
pub fn printed(args: &[&str], input: &[u8]) -> Result<String, Problem> {
    let args: Vec<String> = args.iter().map(|arg| arg.to_string()).collect();
    let mut out = Vec::new();
    run(&args, &mut &input[..], &mut out)?;
    Ok(String::from_utf8(out).expect("text"))
}
