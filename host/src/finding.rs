//! The files that a command was given, and those that folders hold, in the order of names.

use std::ffi::OsStr;
use std::fs;
use std::os::unix::ffi::OsStrExt;
use std::path::{Path, PathBuf};
use std::time::Duration;

use globset::{Glob, GlobBuilder, GlobSet, GlobSetBuilder};
use walkdir::{DirEntry, WalkDir};

use crate::files::{self, trouble};
use crate::head::Form;
use crate::keeping;
use crate::output::note_of;

/// A pattern such as `*.dcm` or `runs/**/late-?.xa`, as given on the command line.
pub fn pattern(text: &str) -> Result<Glob, String> {
    GlobBuilder::new(text).literal_separator(true).build().map_err(|error| error.to_string())
}

/// Patterns: those without a slash match names, those with a slash whole paths.
#[derive(Default)]
struct Patterns {
    names: GlobSet,
    paths: GlobSet,
}

impl Patterns {
    fn of(globs: &[Glob]) -> Result<Patterns, String> {
        let (mut names, mut paths) = (GlobSetBuilder::new(), GlobSetBuilder::new());
        for glob in globs {
            if glob.glob().contains('/') { &mut paths } else { &mut names }.add(glob.clone());
        }
        let built = |set: GlobSetBuilder| set.build().map_err(|error| error.to_string());
        Ok(Patterns { names: built(names)?, paths: built(paths)? })
    }

    fn match_path(&self, path: &Path) -> bool {
        self.names.is_match(path.file_name().unwrap_or_default())
            || self.paths.is_match(path.strip_prefix(".").unwrap_or(path))
    }
}

/// Which files are looked at; by default all.
#[derive(Default)]
pub struct Choice {
    include: Option<Patterns>,
    exclude: Patterns,
}

impl Choice {
    /// Those that match one of `include`, if there are any, and none of `exclude`.
    pub fn of(include: &[Glob], exclude: &[Glob]) -> Result<Choice, String> {
        let wanted = if include.is_empty() { None } else { Some(Patterns::of(include)?) };
        Ok(Choice { include: wanted, exclude: Patterns::of(exclude)? })
    }

    fn takes(&self, path: &Path) -> bool {
        self.include.as_ref().map_or(true, |wanted| wanted.match_path(path)) && !self.exclude.match_path(path)
    }
}

/// What a command over files and folders was given.
pub struct Inputs {
    pub named: Vec<PathBuf>,
    pub form: Form,
    pub choice: Choice,
    pub settle: Option<Duration>,
    pub timeout: Option<Duration>,
}

impl Inputs {
    /// All files of these paths, without waiting for any.
    pub fn all(named: Vec<PathBuf>, form: Form) -> Inputs {
        Inputs { named, form, choice: Choice::default(), settle: None, timeout: None }
    }

    /// The files, but not those in the folders `leave`, which luux fills.
    pub fn find<'a>(&self, leave: impl IntoIterator<Item = &'a Path>) -> Finding {
        Finding::of(&self.named, leave, &self.choice)
    }
}

/// A file to look at, or a folder that cannot be listed.
pub struct Found {
    pub path: PathBuf,
    pub unreadable: Option<String>,
    /// Whether it was named itself, and not only the folder that contains it.
    pub named: bool,
}

/// Files in the order in which they are named; those of a folder in the order of their names.
#[derive(Default)]
pub struct Finding {
    pub found: Vec<Found>,
    /// How many were not looked at; each was listed on standard error.
    skipped: usize,
    /// How many were not chosen.
    left_out: usize,
}

impl Finding {
    /// What the named files and folders hold. The folders `leave` are not searched.
    fn of<'a>(named: &[PathBuf], leave: impl IntoIterator<Item = &'a Path>, choice: &Choice) -> Finding {
        let leave: Vec<PathBuf> = leave.into_iter().filter_map(|folder| fs::canonicalize(folder).ok()).collect();
        let mut finding = Finding::default();
        for path in named {
            if fs::metadata(path).map_or(false, |about| about.is_dir()) {
                let before = finding.found.len() + finding.left_out;
                finding.folder(path, &leave, choice);
                if finding.found.len() + finding.left_out == before {
                    finding.skip(path, "it contains no files");
                }
            } else {
                finding.file(path, true, choice);
            }
        }
        finding
    }

    /// Counts a file that is not looked at, and says why.
    pub fn skip(&mut self, path: &Path, reason: &str) {
        note_of(path, &format!("skipped: {reason}"));
        self.skipped += 1;
    }

    /// How many files were passed over, for a summary.
    pub fn passed_over(&self) -> [(usize, &'static str); 2] {
        [(self.skipped, "skipped"), (self.left_out, "left out by --include or --exclude")]
    }

    fn file(&mut self, path: &Path, named: bool, choice: &Choice) {
        match choice.takes(path) {
            true => self.found.push(Found { path: path.to_path_buf(), unreadable: None, named }),
            false => self.left_out += 1,
        }
    }

    fn folder(&mut self, path: &Path, leave: &[PathBuf], choice: &Choice) {
        let mut walk = WalkDir::new(path).sort_by_file_name().into_iter();
        while let Some(step) = walk.next() {
            match step {
                Ok(entry) if entry.depth() == 0 => {}
                Ok(entry) if entry.file_type().is_dir() => {
                    if !self.enters(entry.path(), leave, choice) {
                        walk.skip_current_dir();
                    }
                }
                Ok(entry) => self.entry(&entry, choice),
                Err(error) => {
                    let reason = error.io_error().map_or_else(|| error.to_string(), trouble);
                    let path = error.path().unwrap_or(path).to_path_buf();
                    self.found.push(Found {
                        path,
                        unreadable: Some(format!("cannot be listed: {reason}")),
                        named: false,
                    });
                }
            }
        }
    }

    fn enters(&mut self, path: &Path, leave: &[PathBuf], choice: &Choice) -> bool {
        if !leave.is_empty() && fs::canonicalize(path).map_or(false, |path| leave.contains(&path)) {
            self.skip(path, "luux writes to this folder");
            return false;
        }
        let excluded = choice.exclude.match_path(path);
        self.left_out += usize::from(excluded);
        !excluded
    }

    fn entry(&mut self, entry: &DirEntry, choice: &Choice) {
        let path = entry.path();
        // A link counts as what it leads to. Links to folders are not followed, so that the search ends.
        let reason = match fs::metadata(path) {
            Ok(about) if about.is_dir() => "a link to a folder",
            Ok(about) if !about.is_file() => "not a regular file",
            _ if files::is_draft(entry.file_name()) => "a draft that luux left behind",
            _ if is_slip(path) => "a verdict slip",
            // A file whose metadata cannot be read gets its line when it is opened.
            _ => return self.file(path, false, choice),
        };
        self.skip(path, reason);
    }
}

/// Whether a file has the name of a slip, even of one moved aside, and is one.
fn is_slip(path: &Path) -> bool {
    has_name_of_slip(path.file_name().unwrap_or_default()) && keeping::is_slip(path)
}

fn has_name_of_slip(name: &OsStr) -> bool {
    let name = name.as_bytes();
    name.ends_with(b".slip") || name.windows(9).any(|part| part == b".slip.old")
}

#[cfg(test)]
mod tests {
    use super::*;

    fn globs(texts: &[&str]) -> Vec<Glob> {
        texts.iter().map(|text| pattern(text).unwrap()).collect()
    }

    fn taken<'a>(include: &[&str], exclude: &[&str], paths: &[&'a str]) -> Vec<&'a str> {
        let choice = Choice::of(&globs(include), &globs(exclude)).unwrap();
        paths.iter().copied().filter(|path| choice.takes(Path::new(path))).collect()
    }

    #[test]
    fn globs_of_names_and_paths() {
        let paths = ["a.dcm", "./a.dcm", "runs/a.dcm", "runs/sub/a.dcm", "b.txt", "/x/a.dcm"];
        assert_eq!(taken(&[], &[], &paths), paths);
        assert_eq!(taken(&["*.dcm"], &[], &paths), ["a.dcm", "./a.dcm", "runs/a.dcm", "runs/sub/a.dcm", "/x/a.dcm"]);
        assert_eq!(taken(&["runs/*.dcm"], &[], &paths), ["runs/a.dcm"]);
        assert_eq!(taken(&["runs/**"], &["**/sub/*"], &paths), ["runs/a.dcm"]);
        assert_eq!(taken(&["?.{txt,dcm}"], &["a.*"], &paths), ["b.txt"]);
        assert_eq!(taken(&["A.DCM"], &[], &paths), [""; 0]);
        assert!(pattern("[").is_err());
    }

    #[test]
    fn names_of_slips() {
        let is = |name: &str| has_name_of_slip(OsStr::new(name));
        assert!(is("run.xa.slip") && is("run.xa.slip.old") && is("run.xa.slip.old-12"));
        assert!(!is("run.xa") && !is("slip") && !is("run.slip.xa") && !is(""));
    }

    #[test]
    fn what_is_passed_over_is_counted() {
        let folder = tempfile::tempdir().unwrap();
        for name in ["a", "b.txt", ".luux-x.tmp", "skip/c", "out/d"] {
            let path = folder.path().join(name);
            fs::create_dir_all(path.parent().unwrap()).unwrap();
            fs::write(path, b"").unwrap();
        }
        std::os::unix::fs::symlink("skip", folder.path().join("link")).unwrap();
        let out = folder.path().join("out");
        let choice = Choice::of(&[], &globs(&["*.txt", "skip"])).unwrap();
        let finding = Finding::of(&[folder.path().to_path_buf(), folder.path().join("gone")], [out.as_path()], &choice);
        let names: Vec<_> = finding.found.iter().map(|one| (one.path.file_name().unwrap(), one.named)).collect();
        assert_eq!(names, [(OsStr::new("a"), false), (OsStr::new("gone"), true)]);
        assert_eq!(finding.passed_over().map(|(count, _)| count), [3, 2]);
    }
}
