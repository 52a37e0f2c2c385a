//! Converts standard input under two tables in a row, in small pieces as it comes: the
//! text of the first is fed to the second.
//!
//! `chain FIRST SECOND < input > output`, one character a byte. Standard error says how
//! both ended. Ends with 0 where both closed, 2 where one stopped, 1 for all else.

use std::error::Error;
use std::process::ExitCode;
use std::{env, fs};

use cobbletwill::{Chain, Machine, Session, Status};

mod text;

/// The most characters that are read at once.
const PIECE: usize = 16;

fn main() -> ExitCode {
    match chain() {
        Ok(Status::Closed) => ExitCode::SUCCESS,
        Ok(Status::Open | Status::Stopped) => ExitCode::from(2),
        Err(fault) => {
            eprintln!("chain: {fault}");
            ExitCode::FAILURE
        }
    }
}

/// Compiles both tables, feeds the input and prints the text; how the second ended.
fn chain() -> Result<Status, Box<dyn Error>> {
    let paths: Vec<_> = env::args_os().skip(1).collect();
    let [first, second] = &paths[..] else {
        return Err("usage: chain FIRST SECOND < input".into());
    };
    let first = Machine::compile(&fs::read(first)?)?;
    let second = Machine::compile(&fs::read(second)?)?;
    let mut chain = Chain::new(&first, &second);
    let status = loop {
        let piece = text::read_piece(PIECE)?;
        let mut output = vec![0; chain.feed_room(piece.len())];
        let progress = match piece.len() {
            0 => chain.finish(&mut output)?,
            _ => chain.feed(&piece, &mut output)?,
        };
        text::print_text(&output[..progress.written])?;
        if progress.first != Status::Open || progress.second != Status::Open {
            break progress.second;
        }
    };
    report("first", chain.first());
    report("second", chain.second());
    Ok(status)
}

/// How a machine ended, and its counts.
fn report(name: &str, session: &Session) {
    let status = ["open", "closed", "stopped"][session.status as usize];
    let (received, written) = (session.received, session.tally.produced);
    eprintln!("{name} {status}: {received} characters received, {written} written");
}
