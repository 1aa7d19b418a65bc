//! What a command about one run ends with: a file that is written, or why there is none. Either is said on a line.

use std::io;
use std::path::Path;

use serde::{Deserialize, Serialize};

use crate::files;
use crate::image::{format_of, Cell, Image};
use crate::output::{note_of, Lines, Status};

/// Why there is no result, in words. One process may tell it to another.
#[derive(Serialize, Deserialize)]
pub enum Failure {
    /// The library refused.
    Refused(String),
    /// The library refused it, and it is certainly no run.
    Other(String),
    /// Something else.
    Trouble(String),
}

impl From<String> for Failure {
    fn from(trouble: String) -> Failure {
        Failure::Trouble(trouble)
    }
}

/// Says why there is no result: a refusal where the result would be, anything else on standard error.
pub fn explain(path: &Path, failure: Failure, lines: &mut Lines) -> io::Result<Status> {
    match failure {
        Failure::Refused(text) | Failure::Other(text) => lines.put(path, &text).map(|()| Status::Refused),
        Failure::Trouble(trouble) => {
            note_of(path, &trouble);
            Ok(Status::Failed)
        }
    }
}

/// Writes a file that was made from others, and says so. Whether it may be written was asked before those were read.
pub fn write(content: Result<Vec<u8>, String>, to: &Path, about: &str, lines: &mut Lines) -> io::Result<Status> {
    let written =
        content.and_then(|content| files::write_whole(to, &content, false).map_err(|error| files::trouble(&error)));
    match written {
        Ok(()) => lines.put(to, about).map(|()| Status::Fine),
        Err(trouble) => {
            note_of(to, &format!("cannot be written: {trouble}"));
            Ok(Status::Failed)
        }
    }
}

/// The same for a picture, in the format that its name gives.
pub fn write_image<C: Cell>(image: &Image<C>, to: &Path, about: &str, lines: &mut Lines) -> io::Result<Status> {
    let content = match format_of(to) {
        None => Err(String::from("its name must end in .png or .pgm")),
        Some(format) => image.encoded(format),
    };
    write(content, to, &format!("{} x {}, {about}", image.width(), image.height()), lines)
}
