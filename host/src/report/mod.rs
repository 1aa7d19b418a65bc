//! `luux report`: verdicts, findings and pictures of runs, on a page and in a table.

mod letter;
mod page;
mod sheet;
mod target;

use std::io::{self, Write};
use std::path::{Path, PathBuf};
use std::sync::atomic::{AtomicUsize, Ordering};
use std::sync::Mutex;
use std::thread;

use serde::{Deserialize, Serialize};

use crate::buffer::NoRoom;
use crate::codes::Coded;
use crate::files;
use crate::finding::{Finding, Found, Inputs};
use crate::found;
use crate::head::{Form, Judged};
use crate::identity::Identity;
use crate::image::{Format, Image};
use crate::judging;
use crate::library::STACK;
use crate::looking::{self, What};
use crate::names::tags;
use crate::output::{line, may_write, note, note_of, Status};
use crate::picture;
use crate::results::Failure;
use crate::run::{self, Run};
use crate::sampling;
use crate::sentences;
use crate::settling::Settling;
use crate::values::{counted, listed};
use target::{Kind, Target};

/// What `luux report` was asked.
pub struct Wanted {
    pub inputs: Inputs,
    pub output: PathBuf,
    pub csv: bool,
    pub patient: bool,
    pub jobs: usize,
}

/// How many frames of a run are shown, and their longest side.
const THUMBNAILS: u64 = 6;
const SIDE: usize = 128;

/// A picture for the page, as PNG.
#[derive(Serialize, Deserialize)]
struct Picture {
    width: usize,
    height: usize,
    png: Vec<u8>,
    about: String,
}

impl Picture {
    fn of(image: &Image<u8>, about: String) -> Result<Picture, Failure> {
        Ok(Picture { width: image.width(), height: image.height(), png: image.encoded(Format::Png)?, about })
    }
}

/// The pictures of an accepted run.
#[derive(Default, Serialize, Deserialize)]
struct Pictures {
    frames: u64,
    size: (usize, usize),
    thumbnails: Vec<Picture>,
    plot: Option<Picture>,
}

/// What is reported about one file.
struct Entry {
    path: String,
    looked: Looked,
    /// Why it counts as arriving, if it does.
    arriving: Option<String>,
}

/// What was found in a file; one process may tell it to another.
#[derive(Serialize, Deserialize)]
pub struct Looked {
    /// The verdict and the pictures of the run, or why there is no verdict.
    seen: Result<(Judged, Pictures), String>,
    /// What the file is, if it is certainly no run.
    other: Option<String>,
}

impl Looked {
    fn nothing(trouble: String) -> Looked {
        Looked { seen: Err(trouble), other: None }
    }
}

/// How a file ended.
#[derive(Clone, Copy, PartialEq, Eq)]
enum End {
    Accepted,
    Refused,
    Other,
    Unread,
    Arriving,
}

impl End {
    const ALL: [End; 5] = [End::Accepted, End::Refused, End::Unread, End::Other, End::Arriving];

    /// What it is called on the page, as in the summary.
    fn word(self) -> &'static str {
        match self {
            End::Unread => "could not be read",
            other => other.verdict(),
        }
    }

    /// What it is called in the table, as in the JSON of `luux judge`.
    fn verdict(self) -> &'static str {
        match self {
            End::Accepted => "accepted",
            End::Refused => "refused",
            End::Other => "not ours",
            End::Unread => "none",
            End::Arriving => "arriving",
        }
    }
}

impl Entry {
    fn end(&self) -> End {
        match &self.looked.seen {
            _ if self.arriving.is_some() => End::Arriving,
            Ok((judged, _)) if judged.answer.is_done() => End::Accepted,
            Ok(_) if self.looked.other.is_some() => End::Other,
            Ok(_) => End::Refused,
            Err(_) => End::Unread,
        }
    }

    fn judged(&self) -> Option<&Judged> {
        self.looked.seen.as_ref().ok().map(|(judged, _)| judged)
    }

    fn identity(&self) -> Option<&Identity> {
        self.judged().map(|judged| &judged.identity)
    }

    /// The code and the rule that refused it; nothing if it was not refused.
    fn by(&self) -> Option<(u32, u32)> {
        let answer = self.judged()?.answer;
        (self.end() == End::Refused).then_some((answer.number(), answer.rule))
    }

    /// What the rule asks or the code means, or why there is no verdict.
    fn sentence(&self) -> &str {
        match (&self.looked.seen, &self.looked.other) {
            _ if self.arriving.is_some() => self.arriving.as_deref().unwrap_or_default(),
            (_, Some(what)) => what,
            (Ok((judged, _)), None) => sentences::meaning(&judged.answer),
            (Err(trouble), None) => trouble,
        }
    }

    fn found(&self) -> String {
        let judged = self.judged().filter(|_| self.looked.other.is_none());
        judged.map_or_else(String::new, |judged| found::line(&judged.found))
    }

    /// Institution and station; empty if they are not named.
    fn sender(&self) -> Sender {
        let value = |tag| self.identity().and_then(|identity| identity.value(tag)).unwrap_or_default().to_string();
        Sender { institution: value(tags::INSTITUTION_NAME), station: value(tags::STATION_NAME) }
    }
}

/// A rule or a code, in words.
fn by_text((code, rule): (u32, u32)) -> String {
    match rule {
        0 => format!("code {code}"),
        rule => format!("rule {rule}"),
    }
}

/// Who a run came from.
#[derive(Clone, PartialEq, Eq, PartialOrd, Ord)]
struct Sender {
    institution: String,
    station: String,
}

/// The runs of one sender, by their places in the list of entries.
struct Sent {
    sender: Sender,
    entries: Vec<usize>,
}

impl Sent {
    fn count(&self, entries: &[Entry], end: End) -> usize {
        self.entries.iter().filter(|&&place| entries[place].end() == end).count()
    }

    /// How many runs each rule and code refused, in their order.
    fn by(&self, entries: &[Entry]) -> Vec<((u32, u32), usize)> {
        let mut counts = std::collections::BTreeMap::new();
        for by in self.entries.iter().filter_map(|&place| entries[place].by()) {
            *counts.entry(by).or_insert(0) += 1;
        }
        counts.into_iter().collect()
    }
}

/// The senders, those with the most refused runs first. Files that were not read, or are no runs, have none.
fn senders(entries: &[Entry]) -> Vec<Sent> {
    let mut all = std::collections::BTreeMap::<Sender, Vec<usize>>::new();
    for (place, entry) in
        entries.iter().enumerate().filter(|(_, entry)| matches!(entry.end(), End::Accepted | End::Refused))
    {
        all.entry(entry.sender()).or_default().push(place);
    }
    let mut senders: Vec<Sent> = all.into_iter().map(|(sender, entries)| Sent { sender, entries }).collect();
    senders.sort_by_key(|sent| std::cmp::Reverse(sent.count(entries, End::Refused)));
    senders
}

/// Evenly chosen frames of a run, and the plot of all of them.
fn pictures(run: &mut Run) -> Result<Pictures, Failure> {
    let mut thumbnails = Vec::new();
    for frame in picture::chosen(run.frames(), THUMBNAILS) {
        let (image, masked) = run.draw(frame)?;
        let about = format!("frame {frame}, {}", if masked { "masked" } else { "native" });
        thumbnails.push(Picture::of(&image.sampled(SIDE), about)?);
    }
    let (image, about) = sampling::plot(run)?;
    Ok(Pictures { frames: run.frames(), size: run.size(), thumbnails, plot: Some(Picture::of(&image, about)?) })
}

fn looked(judged: run::Looked) -> Looked {
    let mut other = None;
    let seen = judged.and_then(|(judged, run)| match run.map(|mut run| pictures(&mut run)) {
        Ok(Err(Failure::Refused(text) | Failure::Other(text) | Failure::Trouble(text))) => Err(text),
        Ok(Ok(pictures)) => Ok((judged, pictures)),
        Err(what) => {
            other = what;
            Ok((judged, Pictures::default()))
        }
    });
    Looked { seen, other }
}

/// Looks at a file within the memory for its bytes and `more`; or says how much more it needs.
pub fn attempt(path: &Path, form: Form, more: u64) -> Result<Looked, NoRoom> {
    Run::attempt(path, form, more).map(looked)
}

fn entry(wanted: &Wanted, settling: &Settling, place: usize, found: &Found) -> Entry {
    let path = files::printed(&found.path);
    let mut arriving = settling.arriving(place).filter(|_| found.unreadable.is_none());
    let looked = match (&found.unreadable, wanted.inputs.timeout) {
        (Some(trouble), _) => Looked::nothing(trouble.clone()),
        _ if arriving.is_some() => Looked::nothing(String::new()),
        (None, Some(limit)) => {
            looking::within(limit, What::Entry, &found.path, wanted.inputs.form).unwrap_or_else(Looked::nothing)
        }
        (None, None) => looked(Run::judged(&found.path, wanted.inputs.form)),
    };
    // With --settle, a file that changed meanwhile is arriving too.
    if looked.seen.is_err() && found.unreadable.is_none() {
        arriving = arriving.or_else(|| settling.arriving(place));
    }
    Entry { path, looked, arriving }
}

/// Looks at files on several threads; the entries are in the order of the files.
fn entries(wanted: &Wanted, found: &[Found]) -> Vec<Entry> {
    let (next, done) = (AtomicUsize::new(0), Mutex::new(Vec::new()));
    let bar = judging::progress(found.len());
    let settling = Settling::of(found, wanted.inputs.settle);
    let work = || {
        while let Some((place, one)) =
            Some(next.fetch_add(1, Ordering::Relaxed)).and_then(|place| Some((place, found.get(place)?)))
        {
            let made = entry(wanted, &settling, place, one);
            bar.inc(1);
            done.lock().unwrap_or_else(|poisoned| poisoned.into_inner()).push((place, made));
        }
    };
    thread::scope(|scope| {
        for _ in 1..wanted.jobs.min(found.len()) {
            // If a thread cannot be started, the others do its work.
            let _ = thread::Builder::new().stack_size(STACK).spawn_scoped(scope, work);
        }
        work();
    });
    bar.finish_and_clear();
    let mut made = done.into_inner().unwrap_or_else(|poisoned| poisoned.into_inner());
    made.sort_by_key(|(place, _)| *place);
    made.into_iter().map(|(_, entry)| entry).collect()
}

/// The files. A page or a table that is written again is no run, unless it was named itself.
fn find(wanted: &Wanted, targets: &[Target]) -> Finding {
    let mut finding = wanted.inputs.find(None);
    for one in std::mem::take(&mut finding.found) {
        match !one.named && targets.iter().any(|target| target.is_older(&one.path)) {
            true => finding.skip(&one.path, "luux writes this file"),
            false => finding.found.push(one),
        }
    }
    finding
}

/// Writes the page, and the table if it is wanted.
pub fn run(wanted: &Wanted, out: &mut dyn Write) -> io::Result<Status> {
    let targets = Target::all(wanted);
    let finding = find(wanted, &targets);
    // They are written at the end, perhaps after hours; it is better to refuse now.
    if !targets.iter().all(|target| finding.found.iter().all(|one| may_write(&target.path, &one.path))) {
        return Ok(Status::Failed);
    }
    if let Some((target, text)) = target::objection(&targets) {
        note_of(&target.path, &format!("cannot be written: {text}"));
        return Ok(Status::Failed);
    }
    if finding.found.is_empty() {
        note("nothing was reported: no files were found");
        return Ok(Status::Failed);
    }
    let entries = entries(wanted, &finding.found);
    let senders = senders(&entries);
    let count = |end| entries.iter().filter(|entry| entry.end() == end).count();
    let mut about = format!(
        "{} of {}: {} accepted, {} refused, {} {}",
        counted(entries.len(), "file"),
        counted(senders.len(), "sender"),
        count(End::Accepted),
        count(End::Refused),
        count(End::Unread),
        End::Unread.word(),
    );
    let more = [End::Other, End::Arriving].map(|end| (count(end), end.word()));
    about.push_str(&listed(&more));
    about.push_str(&listed(&finding.passed_over()));
    for target in &targets {
        let written = match target.kind {
            Kind::Page => target.write(page::made(wanted, &entries, &senders).as_bytes()),
            Kind::Table => sheet::made(&entries, wanted.patient).and_then(|rows| target.write(&rows)),
        };
        if let Err(trouble) = written {
            note_of(&target.path, &format!("cannot be written: {trouble}"));
            return Ok(Status::Failed);
        }
        let rows = counted(entries.len(), "row");
        line(out, &target.path, if target.kind == Kind::Page { &about } else { &rows })?;
    }
    Ok(Status::Fine)
}
