//! Files that are still arriving: with `--settle` they are recognised by their age, by changes between two looks, and by programs that write
//! to them.

use std::thread;
use std::time::Duration;

use crate::files::{self, State};
use crate::finding::Found;

/// The time between two looks at a file, to see whether it grows; less if `--settle` asks for less.
const LOOK: Duration = Duration::from_secs(1);

/// The files that were found, and their states at the first look.
pub struct Settling<'a> {
    found: &'a [Found],
    settle: Option<Duration>,
    /// The state of each file, if `settle` is given.
    seen: Vec<Option<State>>,
}

impl<'a> Settling<'a> {
    /// Looks at the files for the first time, and waits long enough for a growing file to change.
    pub fn of(found: &'a [Found], settle: Option<Duration>) -> Settling<'a> {
        let mut seen = Vec::new();
        if let Some(settle) = settle {
            seen = found.iter().map(|one| State::at(&one.path).ok()).collect();
            thread::sleep(settle.min(LOOK));
        }
        Settling { found, settle, seen }
    }

    /// Why the file at an index counts as arriving, if it does.
    pub fn arriving(&self, place: usize) -> Option<String> {
        let settle = self.settle?;
        let path = &self.found[place].path;
        let now = State::at(path).ok()?;
        if self.seen[place] != Some(now) {
            return Some(String::from("it changed while luux was watching"));
        }
        let age = now.age();
        if age < settle {
            return Some(format!(
                "written to {:.0} seconds ago, and --settle asks for {}",
                age.as_secs_f64(),
                settle.as_secs_f64()
            ));
        }
        files::is_written_to(path).then(|| String::from("another program has it open for writing"))
    }
}
