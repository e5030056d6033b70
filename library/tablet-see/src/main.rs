//! The program `tablet-see`.

use std::io::{self, BufWriter, Write};
use std::process::ExitCode;
use tablet_see::run::{run, Problem};

fn main() -> ExitCode {
    let args = std::env::args_os().skip(1);
    let args: Vec<String> = args.map(|arg| arg.to_string_lossy().into_owned()).collect();
    let mut out = BufWriter::new(io::stdout().lock());
    let done = run(&args, &mut io::stdin().lock(), &mut out);
    let done = done.and_then(|()| out.flush().map_err(Problem::Io));
    match done {
        Ok(()) => ExitCode::SUCCESS,
        // whoever reads has seen enough
        Err(Problem::Io(error)) if error.kind() == io::ErrorKind::BrokenPipe => ExitCode::SUCCESS,
        Err(problem) => {
            let text = match &problem {
                Problem::Usage(text) => {
                    format!("{text}\n'tablet-see --help' has the commands and examples")
                }
                Problem::Input(text) => text.clone(),
                Problem::Io(error) => error.to_string(),
            };
            // standard error may be closed too; there is nowhere else to say it
            let _ = writeln!(io::stderr(), "tablet-see: {text}");
            ExitCode::from(problem.status())
        }
    }
}
