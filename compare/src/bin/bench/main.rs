//! Times the proved library beside the build before and beside other versions, in one
//! run, and prints the tables of docs/PERFORMANCE.md: the test of words, single calls,
//! feeds beside a machine written for speed and scanners that flex generates, compiling
//! and direct conversion beside the independent version, previews beside feeds, chains
//! beside the feeds of both machines, and live and dead rules and typed texts beside the
//! independent version.

mod calls;
mod chaining;
mod compiling;
mod converting;
mod feeding;
mod inputs;
mod previewing;
mod tables;
mod testing;
mod timing;
mod typing;
mod versions;
mod witnessing;

/// What is timed.
const SUBJECTS: [(&str, fn()); 9] = [
    ("testing", testing::print),
    ("calls", calls::print),
    ("feeding", feeding::print),
    ("compiling", compiling::print),
    ("converting", converting::print),
    ("previewing", previewing::print),
    ("chaining", chaining::print),
    ("witnessing", witnessing::print),
    ("typing", typing::print),
];

/// Times the subjects that are named, or all.
fn main() {
    let named: Vec<String> = std::env::args().skip(1).collect();
    for (name, print) in SUBJECTS {
        if named.is_empty() || named.iter().any(|other| other == name) {
            print();
            println!();
        }
    }
}
