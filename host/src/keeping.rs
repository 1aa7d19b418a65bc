//! What is kept of a verdict: the slip, and the folder that the file is moved to.

use std::fs;
use std::io;
use std::path::{Component, Path, PathBuf};

use crate::codes::{Code, Coded};
use crate::files::{self, State};
use crate::library::{self, Answer, SLIP_SIZE};
use crate::looking::Looked;
use crate::output::Object;

/// Where slips are written, and where files are moved to.
#[derive(Default, clap::Args)]
pub struct Keeping {
    /// Write the verdict on each FILE to DIR/FILE.slip, keeping the folders of FILE
    ///
    /// A slip is written whole or not at all. A file without a verdict on its data set gets no slip; an older slip of it is moved aside, to
    /// FILE.slip.old.
    #[arg(long, value_name = "DIR")]
    pub slips: Option<PathBuf>,
    /// Move each accepted FILE to DIR/FILE by renaming it; existing files are never overwritten
    #[arg(long, value_name = "DIR")]
    pub move_accepted: Option<PathBuf>,
    /// Move each refused FILE to DIR/FILE in the same way
    #[arg(long, value_name = "DIR")]
    pub move_refused: Option<PathBuf>,
}

/// What was kept of one verdict: where, or what went wrong.
#[derive(Default)]
pub struct Kept {
    slip: Option<(PathBuf, Result<(), String>)>,
    aside: Option<Result<PathBuf, String>>,
    moved: Option<(PathBuf, Result<(), String>)>,
}

impl Keeping {
    /// The folders that luux fills.
    pub fn folders(&self) -> impl Iterator<Item = &Path> {
        [&self.slips, &self.move_accepted, &self.move_refused].into_iter().flatten().map(PathBuf::as_path)
    }

    /// Keeps what is to be kept of a file. `before` is the state that it had before it was judged.
    pub fn keep(&self, path: &Path, before: Option<State>, looked: &Looked) -> Kept {
        let mut kept = Kept::default();
        let verdict = match looked {
            Looked::Judged(judged) => Some(judged.answer),
            _ => None,
        };
        if let Some(folder) = &self.slips {
            let slip = slip_path(folder, path);
            match verdict.filter(|answer| !answer.code().is_of_a_head()) {
                Some(answer) => kept.slip = Some((slip.clone(), write_slip(&slip, answer))),
                None => kept.aside = set_aside(&slip),
            }
        }
        let folder =
            verdict.and_then(
                |answer| if answer.is_done() { self.move_accepted.as_ref() } else { self.move_refused.as_ref() },
            );
        // A file without its slip stays where it is, for the next run of luux.
        if let (Some(folder), false) = (folder, kept.failed()) {
            let to = under(folder, path);
            let moved = rename(path, before, &to);
            kept.moved = Some((to, moved));
        }
        kept
    }
}

impl Kept {
    pub fn slip_failed(&self) -> bool {
        matches!(self.slip, Some((_, Err(_)))) || matches!(self.aside, Some(Err(_)))
    }

    pub fn move_failed(&self) -> bool {
        matches!(self.moved, Some((_, Err(_))))
    }

    pub fn failed(&self) -> bool {
        self.slip_failed() || self.move_failed()
    }

    /// What follows the verdict on its line: sentences if the verdict ends in one, else more parts of it.
    pub fn behind(&self, verdict: &str) -> String {
        let mut text = String::new();
        for part in self.parts() {
            match (verdict.ends_with('.'), part.split_at(1)) {
                (true, (first, rest)) => text.push_str(&format!(" {}{rest}.", first.to_ascii_uppercase())),
                (false, _) => text.push_str(&format!("; {part}")),
            }
        }
        text
    }

    fn parts(&self) -> Vec<String> {
        let mut parts = Vec::new();
        if let Some((path, Err(trouble))) = &self.slip {
            parts.push(format!("its slip {} cannot be written: {trouble}", files::printed(path)));
        }
        match &self.aside {
            Some(Ok(path)) => parts.push(format!("its old slip was moved aside to {}", files::printed(path))),
            Some(Err(trouble)) => parts.push(format!("its old slip cannot be moved aside: {trouble}")),
            None => {}
        }
        match &self.moved {
            Some((path, Ok(()))) => parts.push(format!("moved to {}", files::printed(path))),
            Some((path, Err(trouble))) => parts.push(format!("not moved to {}: {trouble}", files::printed(path))),
            None => {}
        }
        parts
    }

    pub fn put_into(&self, object: &mut Object) {
        match &self.slip {
            Some((path, Ok(()))) => object.put_path("slip", path),
            Some((_, Err(trouble))) => object.put("slip_error", trouble.as_str()),
            None => {}
        }
        match &self.aside {
            Some(Ok(path)) => object.put_path("old_slip", path),
            Some(Err(trouble)) => object.put("slip_error", trouble.as_str()),
            None => {}
        }
        match &self.moved {
            Some((path, Ok(()))) => object.put_path("moved", path),
            Some((_, Err(trouble))) => object.put("move_error", trouble.as_str()),
            None => {}
        }
    }
}

/// A path as it was named, under a folder. Any `/` at its start and any `..` are left out.
fn under(folder: &Path, file: &Path) -> PathBuf {
    let mut path = folder.to_path_buf();
    path.extend(file.components().filter(|part| matches!(part, Component::Normal(_))));
    path
}

/// The path of the slip of a file.
pub fn slip_path(folder: &Path, file: &Path) -> PathBuf {
    with_ending(&under(folder, file), ".slip")
}

fn with_ending(path: &Path, ending: &str) -> PathBuf {
    let mut name = path.file_name().unwrap_or_default().to_os_string();
    name.push(ending);
    path.with_file_name(name)
}

/// Larger files are not read to see whether they are slips.
const SLIP_MOST: u64 = 64;

/// Whether a path leads to a slip; an error if what is there cannot be read.
fn slip_at(path: &Path) -> io::Result<bool> {
    let small = fs::metadata(path).is_ok_and(|about| about.is_file() && about.len() <= SLIP_MOST);
    Ok(small && library::read_slip(&fs::read(path)?).is_done())
}

/// Whether a path leads to a slip.
pub fn is_slip(path: &Path) -> bool {
    slip_at(path).unwrap_or(false)
}

/// Writes a slip, never over anything but a slip.
fn write_slip(path: &Path, answer: Answer) -> Result<(), String> {
    if fs::symlink_metadata(path).is_ok() && !is_slip(path) {
        return Err(String::from("that file exists already, and is no slip"));
    }
    let mut slip = [0; SLIP_SIZE];
    match library::write_slip(answer, &mut slip) {
        Code::Done => files::write_whole(path, &slip, true).map_err(|error| files::trouble(&error)),
        code => Err(format!("code {}: {}", code as u32, code.meaning())),
    }
}

/// Moves a slip, if there is one, to a name that no file has yet.
fn set_aside(slip: &Path) -> Option<Result<PathBuf, String>> {
    match slip_at(slip) {
        Ok(true) => {}
        Ok(false) => return None,
        Err(error) => return Some(Err(files::trouble(&error))),
    }
    for number in 1..u32::MAX {
        let ending = if number == 1 { String::from(".old") } else { format!(".old-{number}") };
        let to = with_ending(slip, &ending);
        match files::rename_new(slip, &to) {
            Ok(()) => return Some(Ok(to)),
            Err(error) if error.kind() == io::ErrorKind::AlreadyExists => {}
            Err(error) => return Some(Err(files::trouble(&error))),
        }
    }
    None
}

/// EXDEV: a file cannot be renamed into another file system.
const OTHER_DEVICE: i32 = 18;

/// Moves a file that still has the state that it had before it was judged.
fn rename(path: &Path, before: Option<State>, to: &Path) -> Result<(), String> {
    if fs::symlink_metadata(path).map_or(false, |about| about.file_type().is_symlink()) {
        return Err(String::from("it is a link"));
    }
    if before.is_none() || State::at(path).ok() != before {
        return Err(String::from("it has changed since it was judged"));
    }
    let made = to.parent().map_or(Ok(()), fs::create_dir_all);
    made.and_then(|()| files::rename_new(path, to)).map_err(|error| match error.raw_os_error() {
        _ if error.kind() == io::ErrorKind::AlreadyExists => String::from("that file exists already"),
        Some(OTHER_DEVICE) => String::from("it is on another file system, and luux only renames files"),
        _ => files::trouble(&error),
    })
}

#[cfg(test)]
mod tests {
    use super::*;

    #[test]
    fn sentences_follow_a_sentence() {
        let kept = Kept { moved: Some((PathBuf::from("bad/a"), Ok(()))), ..Kept::default() };
        assert_eq!(kept.behind("accepted"), "; moved to bad/a");
        assert_eq!(kept.behind("rule 1, frame 0: It must be. Found: nothing."), " Moved to bad/a.");
        let failed = Kept {
            slip: Some((PathBuf::from("s"), Err(String::from("no room")))),
            moved: Some((PathBuf::from("m"), Err(String::from("it is a link")))),
            ..Kept::default()
        };
        assert_eq!(failed.behind("code 1"), "; its slip s cannot be written: no room; not moved to m: it is a link");
        assert_eq!(failed.behind("It is so."), " Its slip s cannot be written: no room. Not moved to m: it is a link.");
        assert_eq!(Kept::default().behind("accepted"), "");
    }

    #[test]
    fn only_slips_are_replaced() {
        let folder = tempfile::tempdir().unwrap();
        let slip = folder.path().join("x.slip");
        assert!(!is_slip(&slip) && set_aside(&slip).is_none());
        assert!(write_slip(&slip, Answer::default()).is_ok() && is_slip(&slip));
        assert!(write_slip(&slip, Answer::default()).is_ok());
        assert_eq!(set_aside(&slip), Some(Ok(folder.path().join("x.slip.old"))));
        fs::write(&slip, b"a run").unwrap();
        assert!(write_slip(&slip, Answer::default()).is_err() && set_aside(&slip).is_none());
        assert!(fs::read(&slip).unwrap() == b"a run" && !is_slip(folder.path()));
    }

    #[test]
    fn slips_stay_under_their_folder() {
        assert_eq!(slip_path(Path::new("slips"), Path::new("/a/../b/run.xa")), Path::new("slips/a/b/run.xa.slip"));
        assert_eq!(under(Path::new("done"), Path::new("../../run")), Path::new("done/run"));
    }
}
