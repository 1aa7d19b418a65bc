//! Opening, writing and moving files, and their names in print.

use std::ffi::OsStr;
use std::fs::{self, File, Metadata, Permissions};
use std::io::{self, Write};
use std::os::unix::ffi::OsStrExt;
use std::os::unix::fs::{FileExt, MetadataExt, PermissionsExt};
use std::path::{Path, PathBuf};
use std::sync::atomic::{AtomicBool, AtomicU32, Ordering};
use std::thread;
use std::time::{Duration, SystemTime};

use rustix::fs::{cwd, fstatfs, renameat_with, RenameFlags};
use rustix::io::Errno;

use crate::library::{Lease, Mapping, Memory};
use crate::memory::Granted;

/// Whether files are mapped. Otherwise they are read into memory of our own, which nobody else can change.
static MAPPED: AtomicBool = AtomicBool::new(false);

/// The permissions that new files have.
static MODE: AtomicU32 = AtomicU32::new(0o600);

/// Sets what holds for the whole process.
pub fn start(mapped: bool) {
    MAPPED.store(mapped, Ordering::Relaxed);
    MODE.store(0o666 & !mask().unwrap_or(0o077), Ordering::Relaxed);
}

/// The umask: the permissions that new files do not get.
fn mask() -> Option<u32> {
    let status = fs::read_to_string("/proc/self/status").ok()?;
    let line = status.lines().find_map(|line| line.strip_prefix("Umask:"))?;
    u32::from_str_radix(line.trim(), 8).ok()
}

/// Whether files are mapped.
pub fn are_mapped() -> bool {
    MAPPED.load(Ordering::Relaxed)
}

/// An error about a file, with what to do about it.
pub fn trouble(error: &io::Error) -> String {
    match error.kind() {
        io::ErrorKind::NotFound => String::from("no such file or folder; check the name"),
        io::ErrorKind::PermissionDenied => {
            String::from("permission denied; ask its owner for access, or run luux as a user who has it")
        }
        _ => error.to_string(),
    }
}

fn unread(error: &io::Error) -> String {
    format!("cannot be read: {}", trouble(error))
}

const CHANGED: &str = "changed while luux was reading it; wait until it is complete and try again";
const WRITTEN: &str = "another program has it open for writing; wait until it is complete and try again";

/// Which file it is, how large, and when it was last written to and changed.
#[derive(Clone, Copy, PartialEq, Eq)]
pub struct State {
    file: (u64, u64),
    size: u64,
    written: (i64, i64),
    changed: (i64, i64),
}

impl State {
    fn of(about: &Metadata) -> State {
        State {
            file: (about.dev(), about.ino()),
            size: about.len(),
            written: (about.mtime(), about.mtime_nsec()),
            changed: (about.ctime(), about.ctime_nsec()),
        }
    }

    /// The state of the file that a path leads to.
    pub fn at(path: &Path) -> io::Result<State> {
        fs::metadata(path).map(|about| State::of(&about))
    }

    pub fn size(&self) -> u64 {
        self.size
    }

    /// How long ago it was changed; nothing if that is not in the past.
    fn rested(&self) -> Option<Duration> {
        since(self.changed)
    }

    /// How long ago it was written to. If that time is in the future, the time of the last change of its metadata counts.
    pub fn age(&self) -> Duration {
        since(self.written).or_else(|| since(self.changed)).unwrap_or_default()
    }
}

/// How long ago a time was, given in seconds and nanoseconds; nothing if it is not in the past.
fn since((seconds, nanoseconds): (i64, i64)) -> Option<Duration> {
    let then = match u64::try_from(seconds) {
        Ok(seconds) => SystemTime::UNIX_EPOCH.checked_add(Duration::new(seconds, u32::try_from(nanoseconds).ok()?))?,
        Err(_) => SystemTime::UNIX_EPOCH,
    };
    SystemTime::now().duration_since(then).ok()
}

/// Kernels keep the times of files in steps of at most this. Within one step a file can change twice and show one time.
const STEP: Duration = Duration::from_millis(20);

/// How often luux tries to read a file that changes, or that somebody writes to.
const LOOKS: usize = 8;

/// The state of a file once it has not changed for `long`, so that any later change shows.
fn resting(file: &File, long: Duration, looks: usize) -> io::Result<Option<State>> {
    for _ in 0..looks {
        let state = State::of(&file.metadata()?);
        match state.rested() {
            Some(rested) if rested < long => thread::sleep(long - rested),
            _ => return Ok(Some(state)),
        }
    }
    Ok(None)
}

/// File systems, as statfs(2) numbers them, that others write to without this kernel: Ceph, CIFS, FUSE, NFS, 9P, SMB, SMB2, VirtualBox. There a
/// lease says nothing about others, and may be refused though nobody writes.
const SHARED: [u64; 8] = [0x00C3_6400, 0xFF53_4D42, 0x6573_5546, 0x6969, 0x0102_1997, 0x517B, 0xFE53_4D42, 0x786F_4256];

/// Whether only this kernel writes to the file's file system, as far as can be told.
fn is_local(file: &File) -> bool {
    fstatfs(file).is_ok_and(|about| !SHARED.contains(&(about.f_type as u64)))
}

/// Who may write to a file while we read it.
enum Writers<'a> {
    /// Nobody, while the lease holds.
    None(Lease<'a>),
    /// Somebody has it open for writing now.
    Some,
    /// Not known: there is no lease.
    Unknown,
}

fn writers(file: &File) -> Writers<'_> {
    if !is_local(file) {
        return Writers::Unknown;
    }
    match Lease::take(file) {
        Ok(lease) => Writers::None(lease),
        Err(error) if error.kind() == io::ErrorKind::WouldBlock => Writers::Some,
        Err(_) => Writers::Unknown,
    }
}

/// Whether somebody is known to have a file open for writing.
pub fn is_written_to(path: &Path) -> bool {
    let regular = fs::metadata(path).is_ok_and(|about| about.is_file());
    regular && File::open(path).is_ok_and(|file| matches!(writers(&file), Writers::Some))
}

enum Content {
    Own(Memory),
    Mapped(Mapping),
}

/// An open file and its bytes.
pub struct Opened {
    file: File,
    content: Content,
    then: State,
    granted: Granted,
}

impl Opened {
    /// Opens a file, if there is memory for its bytes now.
    pub fn open(path: &Path) -> Result<Opened, String> {
        Opened::granted(path, Granted::now)
    }

    /// Opens a file as soon as there is memory for its bytes and `more`. Only for a caller who holds no memory.
    pub fn with_room(path: &Path, more: u64) -> Result<Opened, String> {
        Opened::granted(path, |bytes| Granted::wait_for(bytes.saturating_add(more)))
    }

    fn granted(path: &Path, grant: impl FnOnce(u64) -> Result<Granted, String>) -> Result<Opened, String> {
        // Tested before opening, since opening a pipe would wait for its writer.
        let about = fs::metadata(path).map_err(|error| unread(&error))?;
        if about.is_dir() {
            return Err(String::from("cannot be read: it is a folder; name a file in it"));
        }
        if !about.is_file() {
            return Err(String::from("cannot be read: it is not a regular file; copy it into one first"));
        }
        let file = File::open(path).map_err(|error| unread(&error))?;
        let size = file.metadata().map_err(|error| unread(&error))?.len();
        let granted = grant(if are_mapped() { 0 } else { size }).map_err(|text| format!("cannot be read: {text}"))?;
        let (content, then) = match are_mapped() {
            true => {
                let then = rested(&file, size, STEP, LOOKS)?;
                (Content::Mapped(Mapping::of(&file).map_err(|error| unread(&error))?), then)
            }
            false => {
                let (memory, then) = private(&file, size)?;
                (Content::Own(memory), then)
            }
        };
        Ok(Opened { file, content, then, granted })
    }

    pub fn bytes(&self) -> &[u8] {
        match &self.content {
            Content::Own(memory) => memory.bytes(),
            Content::Mapped(mapping) => mapping.bytes(),
        }
    }

    /// Splits off some of the memory that was granted with the file.
    pub fn room(&mut self, bytes: u64) -> Granted {
        self.granted.split(bytes)
    }

    /// An error if the size or a time of the file has changed since it was opened, so that no answer about it holds.
    pub fn unchanged(&self) -> Result<(), String> {
        match is_still(&self.file, self.then) {
            true => Ok(()),
            false => Err(String::from(CHANGED)),
        }
    }
}

/// The state of a file that still has its size, once it has not changed for `long`.
fn rested(file: &File, size: u64, long: Duration, looks: usize) -> Result<State, String> {
    let then = resting(file, long, looks).map_err(|error| unread(&error))?;
    then.filter(|then| then.size == size).ok_or_else(|| String::from(CHANGED))
}

/// A copy of a file's bytes, all of one moment, and the file's state then.
fn private(file: &File, size: u64) -> Result<(Memory, State), String> {
    let memory = usize::try_from(size).ok().and_then(|size| Memory::of(size).ok());
    let mut memory = memory.ok_or_else(|| format!("cannot be read: not enough memory for {size} bytes"))?;
    for _ in 0..LOOKS {
        let then = rested(file, size, STEP, LOOKS)?;
        match writers(file) {
            Writers::Some => thread::sleep(STEP),
            Writers::Unknown => return twice(file, memory, size),
            Writers::None(lease) => {
                // Somebody wrote between the test and the lease.
                if !is_still(file, then) {
                    continue;
                }
                fill(file, memory.bytes_mut())?;
                return if lease.holds() { Ok((memory, then)) } else { Err(String::from(CHANGED)) };
            }
        }
    }
    Err(String::from(WRITTEN))
}

/// Without a lease: how long a file must have been left alone, and the pause between the first and the second reading.
const ALONE: Duration = Duration::from_secs(2);
const PAUSE: Duration = Duration::from_millis(100);

/// The same without a lease: the file must have been left alone for some time, and must read the same twice.
fn twice(file: &File, mut memory: Memory, size: u64) -> Result<(Memory, State), String> {
    let then = rested(file, size, ALONE, 2)?;
    fill(file, memory.bytes_mut())?;
    // A time that is not in the past does not say how long the file was left alone.
    thread::sleep(if then.rested().is_some() { PAUSE } else { ALONE });
    match is_same_again(file, memory.bytes()) {
        Ok(true) if is_still(file, then) => Ok((memory, then)),
        Ok(_) => Err(String::from(CHANGED)),
        Err(error) => Err(unread(&error)),
    }
}

fn is_still(file: &File, then: State) -> bool {
    file.metadata().is_ok_and(|now| State::of(&now) == then)
}

fn fill(file: &File, bytes: &mut [u8]) -> Result<(), String> {
    file.read_exact_at(bytes, 0).map_err(|error| match error.kind() {
        io::ErrorKind::UnexpectedEof => String::from(CHANGED),
        _ => unread(&error),
    })
}

/// How much of a file is read at a time to see whether it still reads the same.
const PIECE: usize = 1 << 16;

fn is_same_again(file: &File, bytes: &[u8]) -> io::Result<bool> {
    let mut again = vec![0; PIECE.min(bytes.len())];
    for (place, piece) in bytes.chunks(PIECE).enumerate() {
        let again = &mut again[..piece.len()];
        match file.read_exact_at(again, (place * PIECE) as u64) {
            Ok(()) if again == piece => {}
            Err(error) if error.kind() != io::ErrorKind::UnexpectedEof => return Err(error),
            _ => return Ok(false),
        }
    }
    Ok(true)
}

/// The folder of a file.
fn folder_of(path: &Path) -> &Path {
    match path.parent() {
        Some(folder) if folder != Path::new("") => folder,
        _ => Path::new("."),
    }
}

/// How the names of drafts start and end.
const DRAFT: (&str, &str) = (".luux-", ".tmp");

/// Whether a file has the name of a draft. A draft stays behind if the tool was killed while writing it.
pub fn is_draft(name: &OsStr) -> bool {
    let name = name.as_bytes();
    name.starts_with(DRAFT.0.as_bytes()) && name.ends_with(DRAFT.1.as_bytes())
}

/// Whether a path leads to a regular file that starts with these bytes.
pub fn starts_with(path: &Path, start: &[u8]) -> bool {
    let regular = fs::metadata(path).is_ok_and(|about| about.is_file());
    let mut bytes = vec![0; start.len()];
    regular && File::open(path).is_ok_and(|file| file.read_exact_at(&mut bytes, 0).is_ok()) && bytes == start
}

/// Writes a file whole or not at all: to a draft in the same folder, which is synced and renamed. Missing folders are made if `folders`. A
/// device, a pipe or a folder is never replaced.
pub fn write_whole(path: &Path, content: &[u8], folders: bool) -> io::Result<()> {
    if fs::metadata(path).is_ok_and(|about| !about.is_file()) {
        return Err(io::Error::new(io::ErrorKind::AlreadyExists, "it exists, and is not a regular file"));
    }
    let folder = folder_of(path);
    if folders {
        fs::create_dir_all(folder)?;
    }
    // A draft that is dropped is removed.
    let mut draft = tempfile::Builder::new().prefix(DRAFT.0).suffix(DRAFT.1).tempfile_in(folder)?;
    draft.write_all(content)?;
    draft.as_file().set_permissions(Permissions::from_mode(MODE.load(Ordering::Relaxed)))?;
    draft.as_file().sync_all()?;
    draft.persist(path).map_err(|failed| failed.error)?;
    // The file is whole in any case; some file systems cannot sync a folder.
    let _ = File::open(folder).and_then(|folder| folder.sync_all());
    Ok(())
}

/// Renames a file, never over another.
pub fn rename_new(from: &Path, to: &Path) -> io::Result<()> {
    match renameat_with(cwd(), from, cwd(), to, RenameFlags::NOREPLACE) {
        // Some file systems cannot do that. A link is refused there too if the name exists.
        Err(Errno::INVAL | Errno::NOSYS | Errno::NOTSUP) => {
            fs::hard_link(from, to)?;
            fs::remove_file(from)
        }
        done => done.map_err(io::Error::from),
    }
}

/// Whether a character is printed as itself: no backslash, control, format or separator character, and not unassigned.
pub fn is_plain(letter: char) -> bool {
    match letter {
        ' '..='~' => letter != '\\',
        // The standard library knows which characters can be printed, and escapes the others.
        _ => String::from_iter(['a', letter]).escape_debug().count() == 2,
    }
}

/// A character in print: itself, or `\\` for a backslash, `\x0A` for a control character of ASCII, `\u{202E}` for any other that is not plain.
pub fn escaped(letter: char) -> String {
    match letter {
        '\\' => String::from("\\\\"),
        _ if letter.is_ascii_control() => format!("\\x{:02X}", letter as u32),
        _ if is_plain(letter) => String::from(letter),
        _ => format!("\\u{{{:X}}}", letter as u32),
    }
}

/// A path on one line of print. So a line stays a line, and no two names look the same.
pub fn printed(path: &Path) -> String {
    let mut line = String::new();
    let mut rest = path.as_os_str().as_bytes();
    while !rest.is_empty() {
        let whole = match std::str::from_utf8(rest) {
            Ok(_) => rest.len(),
            Err(error) => error.valid_up_to(),
        };
        let (text, others) = rest.split_at(whole);
        line.extend(String::from_utf8_lossy(text).chars().map(escaped));
        rest = match others.split_first() {
            Some((byte, others)) => {
                line.push_str(&format!("\\x{byte:02X}"));
                others
            }
            None => others,
        };
    }
    line
}

/// Whether two paths lead to one file that is there, also through links of both kinds.
pub fn is_same(one: &Path, other: &Path) -> bool {
    matches!((State::at(one), State::at(other)), (Ok(one), Ok(other)) if one.file == other.file)
}

/// The last part of a path with an ending added, for a file in the current folder.
pub fn beside(path: &Path, ending: &str) -> PathBuf {
    let mut name = path.file_name().unwrap_or_else(|| OsStr::new("run")).to_os_string();
    name.push(ending);
    PathBuf::from(name)
}

#[cfg(test)]
mod tests {
    use super::*;

    fn shown(name: &[u8]) -> String {
        printed(Path::new(OsStr::from_bytes(name)))
    }

    #[test]
    fn names_in_print() {
        assert_eq!(shown("a b/\u{E9}\u{4E2D}.xa".as_bytes()), "a b/\u{E9}\u{4E2D}.xa");
        assert_eq!(shown(b"a\nb\x1B\x7F"), "a\\x0Ab\\x1B\\x7F");
        assert_eq!(shown(b"a\\x0A"), "a\\\\x0A");
        assert_eq!(shown(b"\xFFa\xC3"), "\\xFFa\\xC3");
        assert_eq!(shown("\u{202E}gpj\u{2028}\u{AD}".as_bytes()), "\\u{202E}gpj\\u{2028}\\u{AD}");
        assert_eq!(shown(b""), "");
    }

    /// A byte that is no text and a name that spells its escape look different.
    #[test]
    fn no_two_names_look_the_same() {
        let names: [&[u8]; 6] = [b"\n", b"\\x0A", b"\\\\x0A", "\u{A0}".as_bytes(), b"\\u{A0}", b"\xA0"];
        let all: std::collections::HashSet<String> = names.iter().map(|name| shown(name)).collect();
        assert_eq!(all.len(), names.len());
    }

    #[test]
    fn starts_of_files() {
        let path = tempfile::NamedTempFile::new().unwrap().into_temp_path();
        assert!(starts_with(&path, b"") && !starts_with(&path, b"a"));
        fs::write(&path, b"abc").unwrap();
        assert!(
            starts_with(&path, b"ab")
                && starts_with(&path, b"abc")
                && !starts_with(&path, b"abcd")
                && !starts_with(&path, b"b")
        );
        assert!(!starts_with(Path::new("/dev/null"), b"") && !starts_with(Path::new("/"), b""));
    }

    #[test]
    fn only_regular_files_are_replaced() {
        let folder = tempfile::tempdir().unwrap();
        let path = folder.path().join("a/b");
        assert!(write_whole(&path, b"x", false).is_err() && write_whole(&path, b"x", true).is_ok());
        assert!(write_whole(&path, b"y", false).is_ok() && fs::read(&path).unwrap() == b"y");
        assert!(
            write_whole(&folder.path().join("a"), b"x", false).is_err()
                && write_whole(Path::new("/dev/null"), b"x", false).is_err()
        );
        assert!(fs::metadata("/dev/null").is_ok_and(|about| !about.is_file()));
    }

    #[test]
    fn drafts_have_their_own_names() {
        assert!(is_draft(OsStr::new(".luux-a1.tmp")));
        assert!(!is_draft(OsStr::new("luux-a1.tmp")) && !is_draft(OsStr::new(".luux-a1")));
        assert_eq!(beside(Path::new("a/b/run.xa"), ".movie.png"), Path::new("run.xa.movie.png"));
    }

    #[test]
    fn one_file_under_many_names() {
        let folder = tempfile::tempdir().unwrap();
        let path = |name: &str| folder.path().join(name);
        fs::write(path("a"), "").unwrap();
        fs::write(path("b"), "").unwrap();
        fs::hard_link(path("a"), path("hard")).unwrap();
        std::os::unix::fs::symlink("a", path("soft")).unwrap();
        for name in ["a", "./a", "hard", "soft"] {
            assert!(is_same(&path("a"), &path(name)) && is_same(&path(name), &path("a")), "{name}");
        }
        assert!(!is_same(&path("a"), &path("b")));
        assert!(!is_same(&path("a"), &path("missing")) && !is_same(&path("missing"), &path("missing")));
    }

    #[test]
    fn times() {
        assert!(since((0, 0)).unwrap() > Duration::from_secs(1_000_000_000));
        assert!(since((-5, 0)).is_some() && since((i64::MAX, 0)).is_none() && since((1, -1)).is_none());
    }

    /// On a local file system we get a lease if nobody writes, none if somebody does, and lose it to one who wants to.
    #[test]
    fn leases() {
        let path = tempfile::NamedTempFile::new().unwrap().into_temp_path();
        let file = File::open(&path).unwrap();
        assert!(is_local(&file), "TMPDIR must be on a local file system");
        let writer = fs::OpenOptions::new().write(true).open(&path).unwrap();
        assert!(matches!(writers(&file), Writers::Some) && is_written_to(&path));
        drop(writer);
        assert!(!is_written_to(&path));
        let Writers::None(lease) = writers(&file) else { panic!("nobody writes") };
        assert!(lease.holds());
        let path = path.to_path_buf();
        let other = thread::spawn(move || fs::OpenOptions::new().write(true).open(path).is_ok());
        while lease.holds() {
            thread::yield_now();
        }
        drop(lease);
        assert!(other.join().unwrap());
    }
}
