//! `listing TABLE` prints a table's records in words and whether it compiles.
//! Ends with 0 for a table that does, 1 for one that is refused, 2 for all else.

use std::path::Path;
use std::process::ExitCode;
use std::{env, fs};

use cobbletwill::Machine;
use tools::listing::listing;

fn main() -> ExitCode {
    let Some(path) = env::args_os().nth(1) else {
        eprintln!("usage: listing TABLE");
        return ExitCode::from(2);
    };
    match fs::read(&path) {
        Ok(table) => {
            print!("{}", listing(&table));
            ExitCode::from(u8::from(Machine::compile(&table).is_err()))
        }
        Err(fault) => {
            eprintln!("listing: {}: {fault}", Path::new(&path).display());
            ExitCode::from(2)
        }
    }
}
