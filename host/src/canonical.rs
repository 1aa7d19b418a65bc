//! `luux canonical` and `luux duplicates`: data sets in their canonical form, as the library writes it.
//!
//! Files are grouped by the SHA-256 of their canonical forms. Those that share it are then compared byte by byte, so that equality does not
//! depend on the hash.

use std::collections::{HashMap, HashSet};
use std::fs;
use std::io::{self, Write};
use std::path::{Path, PathBuf};
use std::time::Duration;

use serde::{Deserialize, Serialize};
use sha2::{Digest, Sha256};

use crate::buffer::RowBuffer;
use crate::codes::Coded;
use crate::files::{self, Opened};
use crate::finding::{Finding, Inputs};
use crate::head::{Form, Judged};
use crate::library::Answer;
use crate::looking::{self, What};
use crate::memory::Granted;
use crate::other;
use crate::output::{may_write, note, note_of, Lines, Object, Status};
use crate::results::{self, Failure};
use crate::settling::Settling;
use crate::values::{counted, listed};

/// A data set in its canonical form.
struct Canonical {
    /// The file's head, byte for byte; empty for a bare data set.
    head: Vec<u8>,
    form: Vec<u8>,
    /// Whether the data set is in canonical form already.
    same: bool,
    _granted: Granted,
}

/// The canonical form of a file's data set. What reading refuses is refused here with the same code.
fn form_of(path: &Path, kind: Form, buffer: &mut RowBuffer) -> Result<Canonical, Failure> {
    let opened = Opened::open(path)?;
    let content = opened.bytes();
    if kind == Form::File {
        let answer = buffer.read(kind, content)?;
        if !answer.is_done() {
            let line = Judged::of(kind, content, answer, buffer.table(0)).line();
            let what = other::what(content, &answer, buffer);
            opened.unchanged()?;
            return Err(match what {
                Some(what) => Failure::Other(format!("not ours: {what}; {line}")),
                None => Failure::Refused(line),
            });
        }
    }
    let (head, data) = content.split_at(kind.start(content));
    let granted = Granted::now(data.len() as u64).map_err(|text| format!("for its canonical form {text}"))?;
    let mut form = Vec::new();
    if form.try_reserve_exact(data.len()).is_err() {
        return Err(Failure::Trouble(format!("not enough memory for {} bytes", data.len())));
    }
    // The form is never longer than the data set.
    form.resize(data.len(), 0);
    let written = buffer.canonical(data, &mut form)?;
    if !written.is_done() {
        let line = Judged::of(kind, content, Answer::from(written), buffer.table(0)).line();
        opened.unchanged()?;
        return Err(Failure::Refused(line));
    }
    buffer.let_go();
    form.truncate(written.length as usize);
    let canonical = Canonical { head: head.to_vec(), same: form == data, form, _granted: granted };
    opened.unchanged()?;
    Ok(canonical)
}

/// A canonical form without its bytes.
#[derive(Serialize, Deserialize)]
pub struct Summary {
    hash: [u8; 32],
    length: usize,
    /// Whether the data set is in canonical form already.
    same: bool,
}

impl Summary {
    fn of(found: &Canonical) -> Summary {
        Summary { hash: Sha256::digest(&found.form).into(), length: found.form.len(), same: found.same }
    }
}

/// The summary of one file, as one process tells it to another.
pub fn summary(path: &Path, kind: Form) -> Result<Summary, Failure> {
    form_of(path, kind, &mut RowBuffer::default()).map(|found| Summary::of(&found))
}

/// Why two files cannot be compared: one of them has no canonical form, the file that is added or an earlier one.
#[derive(Serialize, Deserialize)]
pub enum Lost {
    Added(Failure),
    Earlier(Failure),
}

/// Whether a file has the same canonical form as an earlier one, as one process tells it to another.
pub fn are_equal(added: &Path, earlier: &Path, kind: Form) -> Result<bool, Lost> {
    let mut buffer = RowBuffer::default();
    let form = form_of(added, kind, &mut buffer).map_err(Lost::Added)?.form;
    Ok(form_of(earlier, kind, &mut buffer).map_err(Lost::Earlier)?.form == form)
}

/// Writes a file in canonical form to another: its head unchanged, then the canonical form of its data set.
pub fn write(path: &Path, kind: Form, output: &Path, out: &mut dyn Write) -> io::Result<Status> {
    if !may_write(output, path) {
        return Ok(Status::Failed);
    }
    let Canonical { head: mut content, form, same, _granted } = match form_of(path, kind, &mut RowBuffer::default()) {
        Ok(found) => found,
        Err(failure) => return results::explain(path, failure, &mut Lines::Out(out)),
    };
    content.extend(form);
    let about = format!("{} bytes, {}", content.len(), if same { "unchanged" } else { "in canonical form" });
    results::write(Ok(content), output, &about, &mut Lines::Out(out))
}

/// A file, and whether it is in canonical form itself.
struct Member {
    path: PathBuf,
    canonical: bool,
    named: bool,
}

/// Files whose canonical forms are equal.
struct Group {
    hash: [u8; 32],
    length: usize,
    members: Vec<Member>,
}

impl Group {
    fn hash_text(&self) -> String {
        self.hash.iter().map(|byte| format!("{byte:02x}")).collect()
    }

    fn print(&self, out: &mut dyn Write) -> io::Result<()> {
        writeln!(
            out,
            "{} equal data sets, {} bytes in canonical form, SHA-256 {}",
            self.members.len(),
            self.length,
            self.hash_text()
        )?;
        for member in &self.members {
            writeln!(out, "  {}", files::printed(&member.path))?;
        }
        Ok(())
    }

    /// One object: the hash, the length, and the files, each with whether it is in canonical form itself.
    fn json(&self) -> String {
        let files = self.members.iter().map(|member| {
            let mut file = Object::about(&member.path);
            file.put("canonical", member.canonical);
            file
        });
        let mut object = Object::default();
        object.put("sha256", self.hash_text());
        object.put("length", self.length);
        object.put("files", files.collect::<Vec<Object>>());
        object.line()
    }
}

/// What was found so far: the groups in the order of their first files, and which of them have a hash.
struct Search {
    kind: Form,
    timeout: Option<Duration>,
    groups: Vec<Group>,
    by_hash: HashMap<[u8; 32], Vec<usize>>,
    buffer: RowBuffer,
    status: Status,
    refused: usize,
    unread: usize,
    others: usize,
    arriving: usize,
}

impl Search {
    fn of(kind: Form, timeout: Option<Duration>) -> Search {
        Search {
            kind,
            timeout,
            groups: Vec::new(),
            by_hash: HashMap::new(),
            buffer: RowBuffer::default(),
            status: Status::Fine,
            refused: 0,
            unread: 0,
            others: 0,
            arriving: 0,
        }
    }

    /// Adds a file. One that was named itself is meant to be a run.
    fn add(&mut self, path: &Path, named: bool) {
        let found = match self.timeout {
            None => self.add_here(path, named),
            Some(limit) => self.add_within(limit, path, named),
        };
        if let Err(failure) = found {
            self.lose(path, named, &failure);
        }
    }

    /// Counts a file that has no canonical form, and says why.
    fn lose(&mut self, path: &Path, named: bool, failure: &Failure) {
        match failure {
            Failure::Other(text) => {
                self.others += 1;
                self.fail(path, if named { Status::Refused } else { Status::Fine }, text);
            }
            Failure::Refused(text) => {
                self.refused += 1;
                self.fail(path, Status::Refused, text);
            }
            Failure::Trouble(text) => {
                self.unread += 1;
                self.fail(path, Status::Failed, text);
            }
        }
    }

    fn fail(&mut self, path: &Path, status: Status, text: &str) {
        note_of(path, text);
        self.status = self.status.max(status);
    }

    fn add_here(&mut self, path: &Path, named: bool) -> Result<(), Failure> {
        let found = form_of(path, self.kind, &mut self.buffer)?;
        let kind = self.kind;
        let is_equal = |earlier: &Path, buffer: &mut RowBuffer| {
            form_of(earlier, kind, buffer).map(|earlier| earlier.form == found.form).map_err(Lost::Earlier)
        };
        self.place(path, named, &Summary::of(&found), is_equal)
    }

    /// The same, in processes of their own.
    fn add_within(&mut self, limit: Duration, path: &Path, named: bool) -> Result<(), Failure> {
        let kind = self.kind;
        let found: Result<Summary, Failure> = looking::within_alone(limit, What::Form, &[path], kind)?;
        self.place(path, named, &found?, |earlier, _| {
            looking::within_alone(limit, What::Equal, &[path, earlier], kind)
                .unwrap_or_else(|trouble| Err(Lost::Added(Failure::Trouble(trouble))))
        })
    }

    /// Puts a file into the group whose files have the same canonical form, or into a new one. A file of a group that has no canonical form
    /// any more leaves the group.
    fn place(
        &mut self,
        path: &Path,
        named: bool,
        found: &Summary,
        is_equal: impl Fn(&Path, &mut RowBuffer) -> Result<bool, Lost>,
    ) -> Result<(), Failure> {
        let member = Member { path: path.to_path_buf(), canonical: found.same, named };
        for number in self.by_hash.get(&found.hash).cloned().unwrap_or_default() {
            while let Some(first) = self.groups[number].members.first().map(|first| first.path.clone()) {
                match is_equal(&first, &mut self.buffer) {
                    Ok(true) => {
                        self.groups[number].members.push(member);
                        return Ok(());
                    }
                    Ok(false) => break,
                    Err(Lost::Added(failure)) => return Err(failure),
                    Err(Lost::Earlier(failure)) => {
                        let lost = self.groups[number].members.remove(0);
                        self.lose(&lost.path, lost.named, &failure);
                    }
                }
            }
        }
        self.by_hash.entry(found.hash).or_default().push(self.groups.len());
        self.groups.push(Group { hash: found.hash, length: found.length, members: vec![member] });
        Ok(())
    }

    /// How many files were compared, or should have been.
    fn compared(&self) -> usize {
        self.groups.iter().map(|group| group.members.len()).sum::<usize>() + self.refused + self.unread
    }
}

/// What `luux duplicates` was asked.
pub struct Wanted {
    pub inputs: Inputs,
    pub json: bool,
}

/// The files, each once: a file is no duplicate of itself, whatever name it was found under.
fn find(inputs: &Inputs) -> Finding {
    let mut finding = inputs.find(None);
    let mut seen = HashSet::new();
    for one in std::mem::take(&mut finding.found) {
        match fs::canonicalize(&one.path).map_or(true, |path| seen.insert(path)) {
            true => finding.found.push(one),
            false => finding.skip(&one.path, "the same file was found already"),
        }
    }
    finding
}

/// Finds files whose data sets have the same canonical form.
pub fn duplicates(wanted: &Wanted, out: &mut dyn Write) -> io::Result<Status> {
    let Wanted { inputs, json } = wanted;
    let finding = find(inputs);
    if finding.found.is_empty() {
        note("nothing was compared: no files were found");
        return Ok(Status::Failed);
    }
    let mut search = Search::of(inputs.form, inputs.timeout);
    let settling = Settling::of(&finding.found, inputs.settle);
    for (place, one) in finding.found.iter().enumerate() {
        match (&one.unreadable, settling.arriving(place)) {
            (Some(trouble), _) => search.lose(&one.path, one.named, &Failure::Trouble(trouble.clone())),
            (None, Some(why)) => {
                search.arriving += 1;
                search.fail(&one.path, Status::Fine, &format!("arriving: {why}"));
            }
            (None, None) => search.add(&one.path, one.named),
        }
    }
    let equal: Vec<&Group> = search.groups.iter().filter(|group| group.members.len() > 1).collect();
    for group in &equal {
        match *json {
            true => out.write_all(group.json().as_bytes())?,
            false => group.print(out)?,
        }
    }
    let summary = format!(
        "{}: {} equal in {}, {} refused, {} could not be read{}{}",
        counted(finding.found.len(), "file"),
        equal.iter().map(|group| group.members.len()).sum::<usize>(),
        counted(equal.len(), "group"),
        search.refused,
        search.unread,
        listed(&[(search.others, "not ours"), (search.arriving, "arriving")]),
        listed(&finding.passed_over())
    );
    match *json {
        true => note(&summary),
        false => writeln!(out, "{summary}")?,
    }
    if search.compared() == 0 {
        note("nothing was compared: no runs were found, or all are still arriving");
        return Ok(Status::Failed);
    }
    Ok(search.status)
}
