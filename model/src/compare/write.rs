//! Writes the scratch crate `compare` and the cases' inputs.

use super::case::Case;
use std::fs;
use std::path::Path;

/// Theorems in one module.
const MODULE: usize = 25;

const HELP: &str = include_str!("help.txt");

/// What every module of cases uses.
const HEAD: &str = "-- Cases that the model wrote.
use Rattle.std.specs.Prelude.{ℕ, Bool, true, false, not, ◌&&◌, List, [], ◌∷◌, ◌++◌, replicate, T}
use Rattle.rows.specs.Lists.{same_list, bytes}
use Rattle.rows.specs.Tables.{no_process}
use Rattle.rows.specs.Sound.{sound}
use Rattle.rows.specs.Layout.{state_of}
use Rattle.text.specs.Session.{session}
use Rattle.joining.specs.Written.{join}
use Rattle.joining.specs.Feeding.{printed_on}
use Rattle.compare.specs.Help.{row, request, request_with, process, state, tell_next, tell_rows, tell_requests, tell_processes, tell_lent, clauses, answer_to, state_after, called_sound, called, called_all, calls_then, session_then, called_words, opened_words, words_then, opened_then, session_page, state_page, words_page, told, bit_of}

";

/// Writes the scratch crate and a folder of cases into the directory, instead of
/// what was there. The file `list` of the cases has a line for each: its name, then
/// what it is.
pub fn write(directory: &Path, cases: &[Case]) -> std::io::Result<()> {
    let specs = directory.join("crates/compare/specs");
    let source = directory.join("crates/compare/src");
    let inputs = directory.join("cases");
    for part in [&specs, &source, &inputs] {
        if part.exists() {
            fs::remove_dir_all(part)?;
        }
        fs::create_dir_all(part)?;
    }
    fs::write(
        source.join("lib.rt"),
        "// Cases that the prover computes.\n",
    )?;
    fs::write(specs.join("Help.antt"), HELP)?;
    let mut library = String::from("pub mod Help\n");
    for (at, part) in cases.chunks(MODULE).enumerate() {
        let module = format!("Cases{}", at + 1);
        let theorems: String = part.iter().map(Case::theorem).collect();
        fs::write(
            specs.join(format!("{module}.antt")),
            HEAD.to_string() + &theorems,
        )?;
        library += &format!("pub mod {module}\n");
    }
    fs::write(specs.join("Lib.antt"), library)?;
    write_inputs(&inputs, cases)
}

fn write_inputs(inputs: &Path, cases: &[Case]) -> std::io::Result<()> {
    let mut list = String::new();
    for case in cases {
        list += &format!("{} {}\n", case.name, case.about);
        for (ending, content) in &case.files {
            fs::write(inputs.join(format!("{}.{ending}", case.name)), content)?;
        }
    }
    fs::write(inputs.join("list"), list)
}
