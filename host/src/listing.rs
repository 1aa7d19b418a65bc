//! `luux rows` and `luux slip read`: the rows of a data set, and the verdict that a slip records.

use std::io::{self, BufWriter, Write};
use std::path::{Path, PathBuf};

use crate::buffer::RowBuffer;
use crate::codes::Coded;
use crate::files::Opened;
use crate::head::{Form, Judged};
use crate::identity;
use crate::library::{self, Slip};
use crate::names;
use crate::output::{line, note_of, Object, Status};
use crate::sentences;
use crate::table::Row;
use crate::values::Source;

/// How rows are listed.
#[derive(Clone, Copy)]
pub enum Layout {
    /// The numbers of each row, as the program `rowlist` prints them.
    Numbers,
    /// The nesting.
    Tree,
}

/// What is printed about a row besides its numbers.
#[derive(Clone, Copy, PartialEq, Eq)]
pub enum Names {
    No,
    /// Its name and a short value, unless that is the patient's.
    Known,
    /// Its name and a short value.
    Patient,
}

impl Names {
    pub fn of(names: bool, patient: bool) -> Names {
        match (names, patient) {
            (false, _) => Names::No,
            (true, false) => Names::Known,
            (true, true) => Names::Patient,
        }
    }

    /// The most characters of a value.
    const MOST: usize = 60;

    fn text(self, source: &Source, row: &Row, before: &str) -> String {
        match self {
            Names::No => String::new(),
            _ if row.is_item() => String::new(),
            Names::Known if identity::is_of_patient(row.tag) && row.length > 0 && !row.is_sequence() => {
                format!("{before}{}: not shown without --patient", names::name(row.tag))
            }
            _ => format!("{before}{}: {}", names::name(row.tag), source.value(row, Names::MOST)),
        }
    }
}

/// Lists the rows of a data set. Offsets count from its start.
pub fn rows(path: &Path, form: Form, layout: Layout, names: Names, out: &mut dyn Write) -> io::Result<Status> {
    let mut buffer = RowBuffer::default();
    let read = Opened::open(path).and_then(|opened| {
        let answer = buffer.read(form, opened.bytes())?;
        let judged = Judged::of(form, opened.bytes(), answer, buffer.table(answer.rows));
        opened.unchanged().map(|()| (opened, judged))
    });
    let (opened, table) = match read {
        Ok((opened, Judged { answer, .. })) if answer.is_done() => (opened, buffer.table(answer.rows)),
        Ok((_, refused)) => {
            line(out, path, &refused.line())?;
            return Ok(Status::Refused);
        }
        Err(trouble) => {
            note_of(path, &trouble);
            return Ok(Status::Failed);
        }
    };
    let source = Source::of(&opened.bytes()[form.start(opened.bytes())..], table);
    let mut out = BufWriter::new(out);
    writeln!(out, "rows {}", table.count())?;
    match layout {
        Layout::Numbers => numbers(&source, names, &mut out)?,
        Layout::Tree => tree(&source, names, &mut out)?,
    }
    out.flush()?;
    Ok(Status::Fine)
}

fn numbers(source: &Source, names: Names, out: &mut dyn Write) -> io::Result<()> {
    for row in source.table.rows() {
        let Row { tag, depth, offset, length, below, parent, .. } = row;
        let named = names.text(source, &row, " ");
        writeln!(out, "{tag:08X} {} {depth} {offset} {length} {below} {parent}{named}", row.vr_text())?;
    }
    Ok(())
}

/// A row that contains the next ones.
struct Holder {
    row: Row,
    /// How many members of it were listed.
    members: u32,
    /// Whether more of its own siblings follow.
    more: bool,
}

/// Each row after its number, under the row that contains it.
fn tree(source: &Source, names: Names, out: &mut dyn Write) -> io::Result<()> {
    let table = source.table;
    let wide = table.count().to_string().len();
    let mut holders: Vec<Holder> = Vec::new();
    for row in table.rows() {
        while holders.last().is_some_and(|holder| holder.row.number != row.parent) {
            holders.pop();
        }
        let end = holders.last().map_or(table.count(), |holder| holder.row.last());
        let more = row.last() < end;
        let nth = holders.last_mut().map_or(0, |holder| {
            holder.members += 1;
            holder.members
        });
        // No branches are drawn at the root.
        let mut branch: String =
            holders.iter().skip(1).map(|holder| if holder.more { "|   " } else { "    " }).collect();
        if !holders.is_empty() {
            branch.push_str(if more { "|-- " } else { "`-- " });
        }
        let what = match row.is_item() {
            true => format!("item {nth}"),
            false => format!("{} {}", row.tag_text(), row.vr_text()),
        };
        let named = names.text(source, &row, ", ");
        writeln!(out, "{:wide$} {branch}{what}, {} bytes at {}{named}", row.number, row.length, row.offset)?;
        holders.push(Holder { row, members: 0, more });
    }
    Ok(())
}

/// The slip in a file; or why there is none, and the exit status for that.
fn slip_in(path: &Path) -> Result<Slip, (String, Status)> {
    let read = Opened::open(path).and_then(|opened| {
        let slip = library::read_slip(opened.bytes());
        opened.unchanged().map(|()| slip)
    });
    match read {
        Ok(slip) if !slip.is_done() => {
            Err((format!("code {}: {}", slip.number(), slip.code().meaning()), Status::Refused))
        }
        Ok(slip) => Ok(slip),
        Err(trouble) => Err((trouble, Status::Failed)),
    }
}

/// Prints the verdicts that slips record, in words or as JSON.
pub fn read_slips(paths: &[PathBuf], json: bool, out: &mut dyn Write) -> io::Result<Status> {
    let mut status = Status::Fine;
    for path in paths {
        let mut object = Object::about(path);
        let (text, end) = match slip_in(path) {
            Ok(slip) => {
                let (verdict, rows) = (&slip.verdict, slip.rows());
                object.put_answer(verdict, rows);
                let end = if verdict.is_done() { Status::Fine } else { Status::Refused };
                (sentences::slip(verdict, rows), end)
            }
            Err((trouble, end)) => {
                object.put_trouble(&trouble);
                (trouble, end)
            }
        };
        match json {
            true => out.write_all(object.line().as_bytes())?,
            false => line(out, path, &text)?,
        }
        status = status.max(end);
    }
    Ok(status)
}
