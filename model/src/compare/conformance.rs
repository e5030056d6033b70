//! The conformance cases, read from their files.

use crate::tables::Tables;
use std::fs;
use std::io;
use std::path::{Path, PathBuf};

/// The conformance sessions of up to so many lines, with their files' names.
pub fn conformance_inputs(lines: usize) -> io::Result<Vec<(String, Vec<u8>)>> {
    let mut inputs = Vec::new();
    for path in conformance_files("sessions", "session")? {
        let input = fs::read(&path)?;
        if input.iter().filter(|b| **b == b'\n').count() <= lines {
            let about = format!("conformance/sessions/{}.session", stem(&path));
            inputs.push((about, input));
        }
    }
    Ok(inputs)
}

/// The conformance tables with their calls, by the files' names.
pub fn conformance_calls() -> io::Result<Vec<(String, Tables, Vec<u8>)>> {
    let mut calls = Vec::new();
    for path in conformance_files("tables", "tables")? {
        let text = fs::read_to_string(&path)?;
        let line = fs::read(path.with_extension("call"))?;
        let mut tables = Tables::parse(&text).ok_or_else(|| {
            let said = format!("{path:?}: no tables");
            io::Error::new(io::ErrorKind::InvalidData, said)
        })?;
        // The definitions write 0 for an item that is not there.
        tables.requests.iter_mut().for_each(|q| q.strike(0));
        calls.push((stem(&path), tables, line));
    }
    Ok(calls)
}

/// The files of a directory of conformance/ with this ending, in order.
fn conformance_files(directory: &str, ending: &str) -> io::Result<Vec<PathBuf>> {
    let root = PathBuf::from(env!("CARGO_MANIFEST_DIR")).join("conformance");
    let mut files = Vec::new();
    for entry in fs::read_dir(root.join(directory))? {
        let path = entry?.path();
        if path.extension().is_some_and(|e| e == ending) {
            files.push(path);
        }
    }
    files.sort();
    Ok(files)
}

/// The file's name without its ending.
fn stem(path: &Path) -> String {
    let stem = path.file_stem().unwrap_or_default();
    stem.to_string_lossy().into_owned()
}
