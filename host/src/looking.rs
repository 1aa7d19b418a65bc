//! Looking at one file: in this process, or within a time limit in a process of its own.

use std::io::{self, Read, Write};
use std::os::unix::process::{CommandExt, ExitStatusExt};
use std::path::{Path, PathBuf};
use std::process::{Child, Command, Stdio};
use std::thread;
use std::time::Duration;

use clap::ValueEnum;
use serde::de::DeserializeOwned;
use serde::{Deserialize, Serialize};
use wait_timeout::ChildExt;

use crate::buffer::{most_room, NoRoom, RowBuffer};
use crate::canonical;
use crate::files::{self, Opened, State};
use crate::head::{Form, Judged};
use crate::memory::{self, Granted};
use crate::other;
use crate::output::Status;
use crate::report;

/// What is known of a file.
#[derive(Serialize, Deserialize)]
pub enum Looked {
    /// What the library answered.
    Judged(Judged),
    /// The same, and what the file is: certainly no run.
    Other(Judged, String),
    /// Why it is not judged yet.
    Arriving(String),
    /// Why there is no verdict.
    Trouble(String),
}

/// Judges a file within the memory for its bytes and `more`; or says how much more it needs.
fn attempt(path: &Path, form: Form, more: u64, buffer: &mut RowBuffer) -> Result<Looked, NoRoom> {
    let mut opened = match Opened::with_room(path, more) {
        Ok(opened) => opened,
        Err(trouble) => return Ok(Looked::Trouble(trouble)),
    };
    buffer.take(opened.room(more));
    buffer.fit(form, opened.bytes())?;
    Ok(judge(&opened, form, buffer).unwrap_or_else(Looked::Trouble))
}

fn judge(opened: &Opened, form: Form, buffer: &mut RowBuffer) -> Result<Looked, String> {
    let content = opened.bytes();
    let answer = buffer.judge(form, content)?;
    let judged = Judged::of(form, content, answer, buffer.table(answer.rows));
    let what = match form {
        Form::File => other::what(content, &answer, buffer),
        // With --bare the user says that every file is a data set.
        Form::Bare => None,
    };
    opened.unchanged()?;
    Ok(match what {
        Some(what) => Looked::Other(judged, what),
        None => Looked::Judged(judged),
    })
}

/// Looks at a file in this process.
pub fn here(path: &Path, form: Form, buffer: &mut RowBuffer) -> Looked {
    let mut more = 0;
    for _ in 0..2 {
        let looked = attempt(path, form, more, buffer);
        buffer.let_go();
        match looked {
            Ok(looked) => return looked,
            Err(NoRoom(bytes)) => more = bytes,
        }
    }
    Looked::Trouble(format!("cannot be judged: not enough memory for its rows, {more} bytes"))
}

/// What one process tells another.
#[derive(Serialize, Deserialize)]
enum Said<T> {
    Looked(T),
    /// It needs so many bytes of memory, more than were granted.
    Needs(u64),
}

/// What a process of its own is asked about a file.
#[derive(Clone, Copy, PartialEq, Eq, clap::ValueEnum)]
pub enum What {
    /// For `judge`: `Looked`.
    Verdict,
    /// For `report`: the verdict on the run, and its pictures.
    Entry,
    /// For `duplicates`: the hash of its canonical form.
    Form,
    /// For `duplicates`: whether another file has the same canonical form.
    Equal,
}

/// Looks at a file in a process of its own, for at most `limit`. The time starts when there is memory for the file.
pub fn within<T: DeserializeOwned>(limit: Duration, what: What, path: &Path, form: Form) -> Result<T, String> {
    // If the size is not known, the other process reports why.
    let size = State::at(path).map_or(0, |state| state.size());
    let own = if files::are_mapped() { 0 } else { size };
    let mut bytes = own + most_room(size);
    // Room for as many rows as there can be, if that is free; else for those that there are.
    let mut granted = Granted::now(bytes).or_else(|_| {
        bytes = own;
        Granted::wait_for(own)
    });
    for _ in 0..2 {
        if let Err(trouble) = &granted {
            return Err(format!("cannot be read: {trouble}"));
        }
        match ask(limit, what, &[path], form, bytes)? {
            Said::Needs(more) => bytes = more,
            Said::Looked(looked) => return Ok(looked),
        }
        // Nobody waits while holding some.
        drop(granted);
        granted = Granted::wait_for(bytes);
    }
    Err(format!("cannot be judged: not enough memory for {bytes} bytes"))
}

/// The same when no other file is looked at: the other process may use all memory.
pub fn within_alone<T: DeserializeOwned>(
    limit: Duration,
    what: What,
    paths: &[&Path],
    form: Form,
) -> Result<T, String> {
    match ask(limit, what, paths, form, memory::limit())? {
        Said::Needs(bytes) => Err(memory::too_much(bytes, memory::limit())),
        Said::Looked(looked) => Ok(looked),
    }
}

/// The name of the command that the other process is started with.
pub const COMMAND: &str = "look";

fn ask<T: DeserializeOwned>(
    limit: Duration,
    what: What,
    paths: &[&Path],
    form: Form,
    bytes: u64,
) -> Result<Said<T>, String> {
    let child = start(what, paths, form, bytes);
    let said = child.and_then(|child| wait(child, limit));
    said.unwrap_or_else(|error| Err(format!("cannot be read in a process of its own: {error}")))
}

fn start(what: What, paths: &[&Path], form: Form, bytes: u64) -> io::Result<Child> {
    let mut command = Command::new("/proc/self/exe");
    command.arg0("luux").args([COMMAND, "--memory", &bytes.to_string()]);
    command.args((form == Form::Bare).then_some("--bare")).args(files::are_mapped().then_some("--map"));
    let word = what.to_possible_value().map_or_else(String::new, |word| String::from(word.get_name()));
    command.args([String::from("--"), word]).args(paths);
    command.stdin(Stdio::null()).stdout(Stdio::piped()).stderr(Stdio::null()).spawn()
}

/// The stack of a thread that only listens.
const LISTENER: usize = 128 << 10;

/// What the other process says, or why there is nothing.
fn wait<T: DeserializeOwned>(mut child: Child, limit: Duration) -> io::Result<Result<Said<T>, String>> {
    // The answer may be longer than the pipe holds, so somebody listens from the start.
    let pipe = child.stdout.take();
    let listener = thread::Builder::new().stack_size(LISTENER).spawn(move || {
        let mut said = Vec::new();
        pipe.map_or(Ok(0), |mut pipe| pipe.read_to_end(&mut said)).map(|_| said)
    })?;
    // A limit of 0 is over at once, even if the machine let the other process end before this one looks.
    let ended = if limit.is_zero() { None } else { child.wait_timeout(limit)? };
    let Some(status) = ended else {
        child.kill()?;
        // If a disk hangs, the process stays until the disk answers. Nobody waits for it or for the listener.
        child.wait_timeout(Duration::from_secs(1))?;
        return Ok(Err(format!("took longer than the --timeout of {} s; there is no verdict", limit.as_secs_f64())));
    };
    let said = listener.join().unwrap_or_else(|_| Ok(Vec::new()))?;
    Ok(serde_json::from_slice(&said).map_err(|_| {
        let how = status.signal().map_or_else(|| status.to_string(), |signal| format!("signal {signal}"));
        format!("the process that judged it ended with {how}; there is no verdict")
    }))
}

fn say<T: Serialize>(looked: Result<T, NoRoom>, own: u64, out: &mut dyn Write) -> io::Result<()> {
    let said = match looked {
        Ok(looked) => Said::Looked(looked),
        Err(NoRoom(bytes)) => Said::Needs(own.saturating_add(bytes)),
    };
    Ok(serde_json::to_writer(out, &said)?)
}

/// The other process: looks at a file once, within the memory that was granted, and tells what it found.
pub fn run(what: What, paths: &[PathBuf], form: Form, out: &mut dyn Write) -> io::Result<Status> {
    let [path, others @ ..] = paths else {
        return Ok(Status::Failed);
    };
    let own = State::at(path).map_or(0, |state| if files::are_mapped() { 0 } else { state.size() });
    let more = memory::limit().saturating_sub(own);
    match (what, others) {
        (What::Verdict, []) => say(attempt(path, form, more, &mut RowBuffer::default()), own, out)?,
        (What::Entry, []) => say(report::attempt(path, form, more), own, out)?,
        (What::Form, []) => say(Ok(canonical::summary(path, form)), own, out)?,
        (What::Equal, [other]) => say(Ok(canonical::are_equal(path, other, form)), own, out)?,
        _ => return Ok(Status::Failed),
    }
    Ok(Status::Fine)
}
