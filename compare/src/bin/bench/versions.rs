//! Who is timed doing the same.

use compare::builds::{Build, BEFORE, NOW};
use compare::face::OK;
use reference::refusal::Refusal;

/// Both builds of the library.
pub const BUILDS: [&Build; 2] = [&BEFORE, &NOW];

/// A build of the library, or the independent version.
#[derive(Clone, Copy)]
pub enum Version {
    /// A build of the library.
    Library(&'static Build),
    /// The independent version.
    Independent,
}

impl Version {
    /// Both builds and the independent version.
    pub const ALL: [Version; 3] = [
        Version::Library(&BEFORE),
        Version::Library(&NOW),
        Version::Independent,
    ];

    /// What it is called.
    pub fn name(self) -> &'static str {
        match self {
            Version::Library(build) => build.name,
            Version::Independent => "independent",
        }
    }
}

/// The number by which the library answers what the independent version does.
pub fn number<T>(answer: Result<T, Refusal>) -> u32 {
    answer.map_or_else(|refusal| u32::from(refusal.number()), |_| OK)
}
