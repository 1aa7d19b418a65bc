//! `luux judge`: several files in parallel, one line for each, in the order in which they were found.

use std::collections::{BTreeMap, HashMap};
use std::io::{self, Write};
use std::path::{Path, PathBuf};
use std::sync::atomic::{AtomicBool, Ordering};
use std::sync::mpsc::{channel, Sender};
use std::thread;

use indicatif::{ProgressBar, ProgressDrawTarget, ProgressStyle};
use rayon::iter::{ParallelBridge, ParallelIterator};
use serde_json::Value;

use crate::buffer::RowBuffer;
use crate::codes::Coded;
use crate::files::{self, State};
use crate::finding::{Finding, Found, Inputs};
use crate::found;
use crate::head::Judged;
use crate::keeping::{self, Keeping, Kept};
use crate::library::STACK;
use crate::looking::{self, Looked, What};
use crate::output::{line, may_write, note, note_of, Object, Status};
use crate::settling::Settling;
use crate::values::{counted, listed};

/// What `luux judge` was asked.
pub struct Wanted {
    pub inputs: Inputs,
    pub keeping: Keeping,
    pub json: bool,
    pub jobs: usize,
    /// Whether to print the run's identity below its line, and whether to print the patient's.
    pub long: bool,
    pub patient: bool,
    /// Whether to print the sum of the searches of an accepted run.
    pub searches: bool,
}

impl Wanted {
    /// Lines about these files, and nothing else.
    pub fn lines(inputs: Inputs, jobs: usize) -> Wanted {
        let keeping = Keeping::default();
        Wanted { inputs, keeping, json: false, jobs, long: false, patient: false, searches: false }
    }
}

/// What is printed about one file.
struct Report {
    looked: Looked,
    kept: Kept,
    /// Whether the file was named itself.
    named: bool,
}

impl Report {
    fn status(&self) -> Status {
        match &self.looked {
            _ if self.kept.failed() => Status::Failed,
            Looked::Trouble(_) => Status::Failed,
            Looked::Judged(judged) if !judged.answer.is_done() => Status::Refused,
            // Whoever names a file wants it to be a run.
            Looked::Other(..) if self.named => Status::Refused,
            _ => Status::Fine,
        }
    }

    fn text(&self, searches: bool) -> String {
        let mut text = match &self.looked {
            Looked::Judged(judged) if searches && judged.answer.is_done() => {
                format!("{}; searches: {}", judged.line(), counted(judged.answer.searches as usize, "row"))
            }
            Looked::Judged(judged) => judged.line(),
            Looked::Other(_, what) => format!("not ours: {what}"),
            Looked::Arriving(why) => format!("arriving: {why}"),
            Looked::Trouble(trouble) => trouble.clone(),
        };
        text.push_str(&self.kept.behind(&text));
        text
    }

    /// The lines below the first: what identifies the run.
    fn identity(&self, patient: bool) -> String {
        match &self.looked {
            Looked::Judged(judged) => judged.identity.lines(patient),
            _ => String::new(),
        }
    }

    /// One object: `path`, `verdict`, then the numbers and the sentence of the answer, or the error.
    fn json(&self, path: &Path, patient: bool) -> String {
        let mut object = Object::about(path);
        match &self.looked {
            Looked::Judged(judged) => put_judged(&mut object, judged, patient),
            Looked::Other(judged, what) => {
                put_judged(&mut object, judged, patient);
                object.put("verdict", "not ours");
                object.put("what", what.as_str());
            }
            Looked::Arriving(why) => {
                object.put("verdict", "arriving");
                object.put("error", why.as_str());
            }
            Looked::Trouble(_) => object.put_trouble(&self.text(false)),
        }
        self.kept.put_into(&mut object);
        object.line()
    }
}

fn put_judged(object: &mut Object, judged: &Judged, patient: bool) {
    let Judged { answer, item_row, start, hint, found, identity } = judged;
    object.put_answer(answer, Some(answer.rows));
    object.put("searches", answer.searches);
    object.put("item_row", *item_row);
    if let Some(start) = start {
        object.put("start", *start);
    }
    if let Some(hint) = hint {
        object.put("hint", hint.as_str());
    }
    if !found.is_empty() {
        object.put("found", Value::from_iter(found.iter().map(found::Finding::json)));
    }
    object.put("identity", identity.json(patient));
}

/// The files that are judged.
struct Batch<'a> {
    wanted: &'a Wanted,
    found: &'a [Found],
    settling: Settling<'a>,
}

impl<'a> Batch<'a> {
    fn of(wanted: &'a Wanted, found: &'a [Found]) -> Batch<'a> {
        Batch { wanted, found, settling: Settling::of(found, wanted.inputs.settle) }
    }

    fn look(&self, number: usize, buffer: &mut RowBuffer) -> Looked {
        let one = &self.found[number];
        if let Some(trouble) = &one.unreadable {
            return Looked::Trouble(trouble.clone());
        }
        if let Some(why) = self.settling.arriving(number) {
            return Looked::Arriving(why);
        }
        let inputs = &self.wanted.inputs;
        let looked = match inputs.timeout {
            Some(limit) => {
                looking::within(limit, What::Verdict, &one.path, inputs.form).unwrap_or_else(Looked::Trouble)
            }
            None => looking::here(&one.path, inputs.form, buffer),
        };
        // With --settle, a file that changed meanwhile is arriving too.
        match looked {
            Looked::Trouble(trouble) => match self.settling.arriving(number) {
                Some(why) => Looked::Arriving(why),
                None => Looked::Trouble(trouble),
            },
            looked => looked,
        }
    }

    fn report(&self, number: usize, buffer: &mut RowBuffer) -> Report {
        let one = &self.found[number];
        let before = State::at(&one.path).ok();
        let looked = self.look(number, buffer);
        let kept = match one.unreadable {
            Some(_) => Kept::default(),
            None => self.wanted.keeping.keep(&one.path, before, &looked),
        };
        Report { looked, kept, named: one.named }
    }

    /// Judges one file after another on as many threads as were asked for, until none is left or `stop` is set.
    fn judge(&self, stop: &AtomicBool, reports: &Sender<(usize, Report)>) {
        let one = |buffer: &mut RowBuffer, number: usize| {
            if !stop.load(Ordering::Relaxed) {
                // The receiver is gone only once no more lines are wanted.
                let _ = reports.send((number, self.report(number, buffer)));
            }
        };
        let numbers = 0..self.found.len();
        let pool =
            rayon::ThreadPoolBuilder::new().stack_size(STACK).num_threads(self.wanted.jobs.min(self.found.len()));
        match pool.build() {
            Ok(pool) => pool.install(|| numbers.par_bridge().for_each_init(RowBuffer::default, one)),
            // Without threads the files are judged one by one.
            Err(_) => {
                let mut buffer = RowBuffer::default();
                numbers.for_each(|number| one(&mut buffer, number));
            }
        }
    }
}

/// Two different files whose slips would have the same name.
fn same_slip<'a>(found: &'a [Found], folder: &Path) -> Option<(&'a Path, &'a Path)> {
    let mut taken: HashMap<PathBuf, &Path> = HashMap::new();
    for one in found {
        let slip = keeping::slip_path(folder, &one.path);
        match taken.get(&slip) {
            Some(&other) if !files::is_same(other, &one.path) => {
                return Some((other, &one.path));
            }
            _ => {
                taken.insert(slip, &one.path);
            }
        }
    }
    None
}

/// Whether every slip may be written: none is one of the files themselves.
fn may_write_slips(found: &[Found], folder: &Path) -> bool {
    // All slips have this ending, and few other files do.
    let is_named_so = |path: &&Path| path.extension().map_or(false, |ending| ending == "slip");
    let inputs: Vec<&Path> = found.iter().map(|one| one.path.as_path()).filter(is_named_so).collect();
    found.iter().all(|one| {
        let slip = keeping::slip_path(folder, &one.path);
        inputs.iter().all(|input| input.file_name() != slip.file_name() || may_write(&slip, input))
    })
}

/// A progress bar on standard error, if that is a terminal and there is more than one file.
pub fn progress(files: usize) -> ProgressBar {
    if files < 2 {
        return ProgressBar::hidden();
    }
    let bar = ProgressBar::with_draw_target(Some(files as u64), ProgressDrawTarget::stderr());
    if let Ok(style) = ProgressStyle::with_template("{bar:40} {pos} of {len} files, {eta} left") {
        bar.set_style(style);
    }
    bar
}

/// How many files ended in which way.
#[derive(Default)]
struct Counts {
    accepted: usize,
    refused: usize,
    unread: usize,
    others: usize,
    arriving: usize,
    slips_lost: usize,
    not_moved: usize,
}

impl Counts {
    fn add(&mut self, report: &Report) {
        match &report.looked {
            Looked::Judged(judged) if judged.answer.is_done() => self.accepted += 1,
            Looked::Judged(_) => self.refused += 1,
            Looked::Other(..) => self.others += 1,
            Looked::Arriving(_) => self.arriving += 1,
            Looked::Trouble(_) => self.unread += 1,
        }
        self.slips_lost += usize::from(report.kept.slip_failed());
        self.not_moved += usize::from(report.kept.move_failed());
    }

    /// How many were judged, or should have been.
    fn judged(&self) -> usize {
        self.accepted + self.refused + self.unread
    }

    fn files(&self) -> usize {
        self.judged() + self.others + self.arriving
    }

    fn text(&self, finding: &Finding) -> String {
        let slips = if self.slips_lost == 1 { "slip could not be written" } else { "slips could not be written" };
        let more = [
            (self.others, "not ours"),
            (self.arriving, "arriving"),
            (self.slips_lost, slips),
            (self.not_moved, "could not be moved"),
        ];
        format!(
            "{}: {} accepted, {} refused, {} could not be read{}{}",
            counted(self.files(), "file"),
            self.accepted,
            self.refused,
            self.unread,
            listed(&more),
            listed(&finding.passed_over())
        )
    }
}

/// Prints reports, which arrive in any order, in the order of the files.
struct Printing<'a> {
    found: &'a [Found],
    json: bool,
    long: bool,
    patient: bool,
    searches: bool,
    out: &'a mut dyn Write,
    bar: ProgressBar,
    waiting: BTreeMap<usize, Report>,
    due: usize,
    counts: Counts,
    status: Status,
}

impl Printing<'_> {
    fn add(&mut self, number: usize, report: Report) -> io::Result<()> {
        self.waiting.insert(number, report);
        while let Some(report) = self.waiting.remove(&self.due) {
            self.counts.add(&report);
            self.status = self.status.max(report.status());
            let path = &self.found[self.due].path;
            let (out, json) = (&mut self.out, self.json);
            let (long, patient, searches) = (self.long, self.patient, self.searches);
            self.due += 1;
            self.bar.suspend(|| match json {
                true => out.write_all(report.json(path, patient).as_bytes()),
                false => {
                    line(*out, path, &report.text(searches))?;
                    out.write_all(if long { report.identity(patient) } else { String::new() }.as_bytes())
                }
            })?;
            self.bar.inc(1);
        }
        Ok(())
    }
}

/// Judges on several threads, and prints on this one. If standard output cannot be written, the threads stop too, unless slips are to be
/// written or files to be moved.
fn judge_all(batch: &Batch, printing: &mut Printing) -> io::Result<()> {
    let stop = AtomicBool::new(false);
    let goes_on = batch.wanted.keeping.folders().next().is_some();
    thread::scope(|scope| {
        let (reports, arriving) = channel();
        let (stop, here) = (&stop, reports.clone());
        let judge = move || batch.judge(stop, &reports);
        if thread::Builder::new().stack_size(STACK).spawn_scoped(scope, judge).is_err() {
            // Without another thread all files are judged first, and then printed.
            batch.judge(stop, &here);
        }
        drop(here);
        let mut printed = Ok(());
        for (number, report) in arriving {
            if printed.is_ok() {
                printed = printing.add(number, report);
            }
            stop.store(printed.is_err() && !goes_on, Ordering::Relaxed);
        }
        printed
    })
}

/// The files, unless there are none, two would share a slip, or the slip of one would be written over another.
fn find(wanted: &Wanted) -> Option<Finding> {
    let finding = wanted.inputs.find(wanted.keeping.folders());
    if finding.found.is_empty() {
        note("nothing was judged: no files were found");
        return None;
    }
    if let Some((one, other)) = wanted.keeping.slips.as_deref().and_then(|folder| same_slip(&finding.found, folder)) {
        note_of(
            one,
            &format!(
                "its slip would have the same name as that of {}; judge the two separately",
                files::printed(other)
            ),
        );
        note("nothing was judged");
        return None;
    }
    if wanted.keeping.slips.as_deref().map_or(false, |folder| !may_write_slips(&finding.found, folder)) {
        note("nothing was judged");
        return None;
    }
    Some(finding)
}

/// Judges the files and prints the lines. An error is one of standard output.
pub fn run(wanted: &Wanted, out: &mut dyn Write) -> io::Result<Status> {
    let finding = match find(wanted) {
        Some(finding) => finding,
        None => return Ok(Status::Failed),
    };
    let mut printing = Printing {
        found: &finding.found,
        json: wanted.json,
        long: wanted.long,
        patient: wanted.patient,
        searches: wanted.searches,
        out,
        bar: progress(finding.found.len()),
        waiting: BTreeMap::new(),
        due: 0,
        counts: Counts::default(),
        status: Status::Fine,
    };
    let judged = judge_all(&Batch::of(wanted, &finding.found), &mut printing);
    printing.bar.finish_and_clear();
    judged?;

    let summary = printing.counts.text(&finding);
    if wanted.json {
        note(&summary);
    } else {
        writeln!(printing.out, "{summary}")?;
    }
    if printing.counts.judged() == 0 {
        note("nothing was judged: no runs were found, or all are still arriving");
        return Ok(Status::Failed);
    }
    Ok(printing.status)
}
