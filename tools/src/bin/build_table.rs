//! `build_table SOURCE TABLE` writes the table of a source, if it compiles.

use std::ffi::OsString;
use std::path::Path;
use std::process::ExitCode;
use std::{env, fmt, fs};

use tools::build::build;
use tools::listing::verdict;

fn main() -> ExitCode {
    let paths: Vec<OsString> = env::args_os().skip(1).collect();
    let [from, to] = &paths[..] else {
        eprintln!("usage: build_table SOURCE TABLE");
        return ExitCode::from(2);
    };
    match build_table(from.as_ref(), to.as_ref()) {
        Ok(measures) => {
            print!("{measures}");
            ExitCode::SUCCESS
        }
        Err(fault) => {
            eprintln!("build_table: {fault}");
            ExitCode::FAILURE
        }
    }
}

/// Reads the source and writes its table; the table's measures.
fn build_table(from: &Path, to: &Path) -> Result<String, String> {
    let source = fs::read(from).map_err(|fault| named(from, fault))?;
    let table = build(&source).map_err(|fault| named(from, fault))?;
    fs::write(to, &table).map_err(|fault| named(to, fault))?;
    Ok(verdict(&table))
}

/// A fault with the file that it is about.
fn named(path: &Path, fault: impl fmt::Display) -> String {
    format!("{}: {fault}", path.display())
}
