//! Printing. The reader of a pipe may leave at any time.

use std::io::{self, Write};
use std::os::unix::ffi::OsStrExt;
use std::path::Path;

use serde::Serialize;
use serde_json::ser::{CompactFormatter, Formatter, Serializer};
use serde_json::{Map, Value};

use crate::codes::Coded;
use crate::files;
use crate::library::Answer;
use crate::sentences;

/// How a command ends. The worst of its parts counts.
#[derive(Clone, Copy, Debug, PartialEq, Eq, PartialOrd, Ord)]
pub enum Status {
    /// All was accepted, read or drawn.
    Fine = 0,
    /// The library refused something.
    Refused = 1,
    /// Something could not be read or written.
    Failed = 2,
}

/// A line about a file.
pub fn line(out: &mut dyn Write, path: &Path, text: &str) -> io::Result<()> {
    out.write_all(format!("{}: {text}\n", files::printed(path)).as_bytes())
}

/// A line on standard error, in one piece. If that is closed, nobody wants to know.
pub fn note(text: &str) {
    let _ = io::stderr().write_all(format!("luux: {text}\n").as_bytes());
}

/// A line about a file on standard error.
pub fn note_of(path: &Path, text: &str) {
    note(&format!("{}: {text}", files::printed(path)));
}

/// Where lines about files go: to standard output, or to standard error if standard output is for the result alone.
pub enum Lines<'a> {
    Out(&'a mut dyn Write),
    Aside,
}

impl Lines<'_> {
    pub fn put(&mut self, path: &Path, text: &str) -> io::Result<()> {
        match self {
            Lines::Out(out) => line(*out, path, text),
            Lines::Aside => {
                note_of(path, text);
                Ok(())
            }
        }
    }
}

/// The line about a file that cannot be written.
pub fn note_unwritten(path: &Path, error: &io::Error) {
    note_of(path, &format!("cannot be written: {}", files::trouble(error)));
}

/// Whether a file may be written: not if it is an input, under whatever name, and then this says so. Asked before the input is read, which may
/// take long and end in a refusal.
pub fn may_write(to: &Path, input: &Path) -> bool {
    let same = files::is_same(to, input);
    if same {
        note_of(to, "cannot be written: it is the input itself; name another file");
    }
    !same
}

/// A JSON object; its fields keep the order in which they are put.
#[derive(Default)]
pub struct Object(Map<String, Value>);

impl Object {
    /// An object about a file.
    pub fn about(path: &Path) -> Object {
        let mut object = Object::default();
        object.put_path("path", path);
        object
    }

    pub fn put(&mut self, name: &str, value: impl Into<Value>) {
        self.0.insert(String::from(name), value.into());
    }

    /// A path. If it is not UTF-8, its bytes follow in hexadecimal, since no JSON string can hold them.
    pub fn put_path(&mut self, name: &str, path: &Path) {
        self.put(name, path.to_string_lossy());
        if path.to_str().is_none() {
            let digits: String = path.as_os_str().as_bytes().iter().map(|byte| format!("{byte:02x}")).collect();
            self.put(&format!("{name}_hex"), digits);
        }
    }

    /// An answer: `verdict`, its numbers and its sentence. A row count that is not known is `null`.
    pub fn put_answer(&mut self, answer: &Answer, rows: Option<u32>) {
        self.put("verdict", if answer.is_done() { "accepted" } else { "refused" });
        self.put("code", answer.number());
        self.put("offset", answer.offset);
        self.put("rows", rows);
        self.put("rule", answer.rule);
        self.put("frame", answer.frame);
        self.put("sentence", sentences::meaning(answer));
    }

    /// What takes the place of a missing answer.
    pub fn put_trouble(&mut self, trouble: &str) {
        self.put("verdict", "none");
        self.put("error", trouble);
    }

    /// The object on a line.
    pub fn line(&self) -> String {
        let mut text = Vec::new();
        // This cannot fail: it writes to memory, and the keys are strings.
        let _ = self.0.serialize(&mut Serializer::with_formatter(&mut text, Escaping(CompactFormatter)));
        text.push(b'\n');
        String::from_utf8_lossy(&text).into_owned()
    }
}

impl From<Object> for Value {
    fn from(object: Object) -> Value {
        Value::Object(object.0)
    }
}

/// Escapes characters that are not printed as themselves, so that a line stays a line on any terminal.
struct Escaping(CompactFormatter);

impl Formatter for Escaping {
    fn write_string_fragment<W: ?Sized + Write>(&mut self, out: &mut W, fragment: &str) -> io::Result<()> {
        let mut units = [0; 2];
        for letter in fragment.chars() {
            if files::is_plain(letter) {
                self.0.write_string_fragment(out, letter.encode_utf8(&mut [0; 4]))?;
                continue;
            }
            for unit in letter.encode_utf16(&mut units) {
                write!(out, "\\u{unit:04x}")?;
            }
        }
        Ok(())
    }
}
