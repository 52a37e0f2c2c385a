//! Direct conversion, by both builds and by the independent version.

use std::hint::black_box;
use std::time::Duration;

use compare::face::conversion;
use reference::direct::{self, Conversion};

use crate::inputs::{inputs, Input, DESCRIPTION, FILL, LENGTH};
use crate::tables::Table;
use crate::timing::{best, nanoseconds, worked};
use crate::versions::Version;

/// Runs of each conversion, of which the best counts.
const RUNS: usize = 32;

/// Prints the times.
pub fn print() {
    println!("## Direct conversion");
    println!();
    println!(
        "In nanoseconds a character, {LENGTH} characters {DESCRIPTION}, best of {RUNS} runs. All write into one \
         buffer of E × {LENGTH} characters, which is filled before each run, outside the time, and not cleared within it. The library \
         writes its text there at once; the independent version gathers it in a list that grows, and copies that."
    );
    println!();
    let table = Table::new(&["input"], &["independent"], &[], 2);
    for input in inputs() {
        let times = nanoseconds(&times(&input), LENGTH);
        input.print_row(&table, &[input.name], &times);
    }
}

/// The best times of all, whose answers and outputs are compared.
fn times(input: &Input) -> Vec<Duration> {
    let mut output = vec![FILL; input.most_outputs() * LENGTH];
    let answer = convert(Version::Independent, input, &mut output);
    let text = output.clone();
    let builds = input.builds().into_iter().map(Version::Library);
    let versions: Vec<Version> = builds.chain([Version::Independent]).collect();
    best(RUNS, &versions, |version| {
        output.fill(FILL);
        let (other, time) = worked(|| convert(version, black_box(input), &mut output));
        assert_eq!(other, answer, "{}", version.name());
        assert!(output == text, "{}: another output", version.name());
        time
    })
}

/// Converts an input, which is accepted.
fn convert(version: Version, input: &Input, output: &mut [u16]) -> Conversion {
    let (table, text) = (&input.table[..], &input.text[..]);
    let converted = match version {
        Version::Library(build) => {
            let (mut place, mut count) = (0, 0);
            let answer = build.convert(table, text, output, &mut place, &mut count);
            conversion(answer, place, count).ok()
        }
        Version::Independent => direct::convert(table, text, output).ok(),
    };
    converted.expect("the tables and lengths are accepted")
}
