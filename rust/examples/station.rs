//! Converts standard input under a table, piece by piece as it comes.
//!
//! `station TABLE < input > output`, one character a byte. Standard error has the
//! counts at the end, and how often each rule was used, with its line of the source
//! if that stands beside the table: rules.txt beside rules.tab. Ends with 0 for
//! closed, 2 for stopped, 1 for all else.

use std::error::Error;
use std::path::PathBuf;
use std::process::ExitCode;
use std::{env, fs};

use cobbletwill::{Machine, Progress, Session, Status, Tally};

mod text;

/// The most bytes that are read at once.
const PIECE: usize = 4096;

fn main() -> ExitCode {
    match station() {
        Ok(Status::Closed) => ExitCode::SUCCESS,
        Ok(Status::Open | Status::Stopped) => ExitCode::from(2),
        Err(fault) => {
            eprintln!("station: {fault}");
            ExitCode::FAILURE
        }
    }
}

/// Compiles the table, feeds the input and prints the text; how it ended.
fn station() -> Result<Status, Box<dyn Error>> {
    let path = env::args_os().nth(1).map(PathBuf::from);
    let path = path.ok_or("usage: station TABLE < input")?;
    let machine = Machine::compile(&fs::read(&path)?)?;
    let (mut session, mut fed) = (Session::fresh(), 0);
    let status = loop {
        let piece = text::read_piece(PIECE)?;
        let mut output = vec![0; session.feed_room(&machine, piece.len())];
        let Progress { written, status } = match piece.len() {
            0 => session.finish(&machine, &mut output)?,
            _ => session.feed(&machine, &piece, &mut output)?,
        };
        fed += piece.len() as u64;
        text::print_text(&output[..written])?;
        if status != Status::Open {
            break status;
        }
    };
    report(&machine, &session, status, fed);
    let source = fs::read_to_string(path.with_extension("txt"));
    report_uses(&machine, &session, &source.unwrap_or_default());
    Ok(status)
}

/// The counts, with the steps beside their bound.
fn report(machine: &Machine, session: &Session, status: Status, fed: u64) {
    let Tally { produced, steps } = session.tally;
    let consumed = session.consumed();
    let ending = match status {
        Status::Stopped => "stopped",
        Status::Open | Status::Closed => "closed",
    };
    let (longest, most) = (machine.longest_pattern(), machine.most_steps(fed));
    eprintln!("{ending}: {fed} characters fed, {consumed} consumed, {produced} produced");
    eprintln!("{steps} steps, at most ({longest} + 3) * {fed} + 1 = {most}");
}

/// How often each rule and the default were used, with their lines of the source
/// if it has the same rules and default as the table.
fn report_uses(machine: &Machine, session: &Session, source: &str) {
    let rules = usize::from(machine.rule_count());
    let named = (0..rules).map(|rule| (rule.to_string(), session.uses(rule), '"'));
    let default = ("default".to_owned(), session.default_uses(), 'e');
    let groups: Vec<_> = named
        .chain(machine.has_default().then_some(default))
        .collect();
    let statements = statements(source);
    let known = statements.len() == groups.len() && { groups.iter().zip(&statements) }
        .all(|(group, (_, text))| text.starts_with(group.2));
    let heading = if known { "  line" } else { "" };
    eprintln!("   rule          uses{heading}");
    for (place, (name, uses, _)) in groups.into_iter().enumerate() {
        match statements.get(place).filter(|_| known) {
            Some((line, text)) => eprintln!("{name:>7} {uses:13} {line:5}  {text}"),
            None => eprintln!("{name:>7} {uses:13}"),
        }
    }
}

/// The statements of a source, each with its line, up to its semicolon or the end
/// of its first line. A line that begins with `#` is a comment, and in quotes a
/// backslash makes the next character plain.
fn statements(source: &str) -> Vec<(usize, &str)> {
    let mut statements: Vec<(usize, &str)> = Vec::new();
    let (mut inside, mut quoted, mut escaped) = (false, false, false);
    let lines = (1..).zip(source.lines());
    for (number, line) in lines.filter(|(_, line)| !line.starts_with('#')) {
        let mut start = 0;
        for (place, character) in line.char_indices() {
            if !inside && !matches!(character, ' ' | '\r') {
                statements.push((number, &line[place..]));
                (inside, start) = (true, place);
            }
            if character == ';' && !quoted {
                inside = false;
                if let Some(last) = statements.last_mut().filter(|last| last.0 == number) {
                    last.1 = &line[start..=place];
                }
            }
            quoted ^= character == '"' && !escaped;
            escaped = character == '\\' && !escaped;
        }
    }
    statements
}
