//! The files that a report is written to. An existing file is replaced only if luux wrote it as such a file.

use std::fs;
use std::path::{Path, PathBuf};

use super::{page, sheet, Wanted};
use crate::files;

#[derive(Clone, Copy, PartialEq, Eq)]
pub enum Kind {
    Page,
    Table,
}

impl Kind {
    /// How all of them start. A DICOM file has its mark within so many bytes, so no run starts like this.
    fn start(self) -> &'static str {
        match self {
            Kind::Page => page::START,
            Kind::Table => sheet::START,
        }
    }

    fn word(self) -> &'static str {
        match self {
            Kind::Page => "page",
            Kind::Table => "table",
        }
    }
}

pub struct Target {
    pub path: PathBuf,
    pub kind: Kind,
}

impl Target {
    /// The page, and the table if it is wanted.
    pub fn all(wanted: &Wanted) -> Vec<Target> {
        let mut all = vec![Target { path: wanted.output.clone(), kind: Kind::Page }];
        if wanted.csv {
            all.push(Target { path: wanted.output.with_extension("csv"), kind: Kind::Table });
        }
        all
    }

    /// Whether a file is the one that it replaces.
    pub fn is_older(&self, path: &Path) -> bool {
        files::is_same(path, &self.path) && files::starts_with(path, self.kind.start().as_bytes())
    }

    /// What speaks against writing it: there is something of its name that luux did not write.
    fn objection(&self) -> Option<String> {
        let exists = fs::symlink_metadata(&self.path).is_ok();
        let text = || format!("it exists, and is no {} that luux wrote; name another page", self.kind.word());
        (exists && !self.is_older(&self.path)).then(text)
    }

    /// Writes it, never over anything but an older one.
    pub fn write(&self, content: &[u8]) -> Result<(), String> {
        match self.objection() {
            Some(text) => Err(text),
            None => files::write_whole(&self.path, content, false).map_err(|error| files::trouble(&error)),
        }
    }
}

/// One that cannot be written, and why.
pub fn objection(targets: &[Target]) -> Option<(&Target, String)> {
    if let [page, table] = targets {
        if page.path == table.path {
            return Some((page, String::from("the table of --csv has the same name; name another page")));
        }
    }
    targets.iter().find_map(|target| Some((target, target.objection()?)))
}

#[cfg(test)]
mod tests {
    use super::*;

    /// A file's mark ends at byte 132.
    #[test]
    fn no_run_starts_like_a_report() {
        assert!([Kind::Page, Kind::Table].iter().all(|kind| kind.start().len() > 132));
    }

    #[test]
    fn only_older_ones_are_replaced() {
        let folder = tempfile::tempdir().unwrap();
        let target = |name: &str, kind| Target { path: folder.path().join(name), kind };
        let (page, table) = (target("a.html", Kind::Page), target("a.csv", Kind::Table));
        assert!(objection(&[page, table]).is_none());
        let (page, table) = (target("a.csv", Kind::Page), target("a.csv", Kind::Table));
        assert!(objection(&[page, table]).is_some());
        for (kind, other) in [(Kind::Page, Kind::Table), (Kind::Table, Kind::Page)] {
            let one = target("one", kind);
            assert!(one.write(kind.start().as_bytes()).is_ok() && one.write(kind.start().as_bytes()).is_ok());
            assert!(target("one", other).write(b"x").is_err());
            fs::write(&one.path, b"<!DOCTYPE html>\n").unwrap();
            assert!(one.write(b"x").is_err());
            fs::remove_file(&one.path).unwrap();
        }
        std::os::unix::fs::symlink("nowhere", folder.path().join("link")).unwrap();
        assert!(target("link", Kind::Page).write(b"x").is_err());
        assert!(target("", Kind::Page).write(b"x").is_err());
    }
}
