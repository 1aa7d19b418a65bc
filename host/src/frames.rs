//! `luux show` and `luux movie`: frames to a file, a folder or standard output, or as an animated PNG.
//!
//! No cell is computed here. With `both`, a frame is shown beside the same frame drawn without its mask.

use std::fs;
use std::io::{self, Write};
use std::path::{Path, PathBuf};

use crate::codes::Code;
use crate::files;
use crate::head;
use crate::image::{is_picture_name, wrong_name, Format, Image};
use crate::names::tags;
use crate::output::{may_write, note_of, note_unwritten, Lines, Status};
use crate::results::{self, explain, Failure};
use crate::run::Run;

/// Which frames of a run.
#[derive(Clone, Copy, PartialEq, Eq)]
pub enum Frames {
    One(u64),
    Some(u64, u64),
    All,
}

impl Frames {
    /// The first and the last.
    pub fn ends(self, run: &Run) -> (u64, u64) {
        match self {
            Frames::One(frame) => (frame, frame),
            Frames::Some(first, last) => (first, last),
            Frames::All => (1, run.frames()),
        }
    }

    /// The same, for drawing them one after the other. If the run lacks the last one, that is known before the first is drawn, so either all
    /// are drawn or none.
    fn drawable_ends(self, run: &mut Run) -> Result<(u64, u64), Failure> {
        let (first, last) = self.ends(run);
        if first != last {
            run.draw(last)?;
        }
        Ok((first, last))
    }
}

/// The number of a frame.
pub fn frame_number(text: &str) -> Result<u64, &'static str> {
    text.parse().map_err(|_| "expected the number of a frame, counted from 1")
}

/// `all`, two frames with a dash between them, or one.
pub fn frames(text: &str) -> Result<Frames, &'static str> {
    let number = |text: &str| {
        frame_number(text).map_err(|_| "expected the number of a frame, counted from 1, a range such as 1-24, or all")
    };
    match text.split_once('-') {
        _ if text == "all" => Ok(Frames::All),
        None => Ok(Frames::One(number(text)?)),
        Some((first, last)) => match (number(first)?, number(last)?) {
            (first, last) if first > last => Err(Code::FramesReversed.meaning()),
            (first, last) => Ok(Frames::Some(first, last)),
        },
    }
}

/// How frames are drawn, and where to.
pub struct Wanted<'a> {
    pub form: head::Form,
    /// Whether each frame is shown beside itself without its mask.
    pub both: bool,
    /// The format of pictures whose name does not give it.
    pub format: Option<Format>,
    /// A file, a folder or `-`; else the current folder.
    pub output: Option<&'a Path>,
}

/// A picture of a frame, and a description of it.
fn drawn(run: &mut Run, frame: u64, both: bool) -> Result<(Image<u8>, String), Failure> {
    let (image, masked) = run.draw(frame)?;
    let word = if masked { "masked" } else { "native" };
    if !both {
        return Ok((image, format!("frame {frame}, {word}")));
    }
    let plain = run.draw_unmasked(frame)?;
    Ok((image.beside(&plain), format!("frame {frame}, {word} beside native")))
}

/// The name of a frame's picture. Numbers in a folder have as many digits as that of the last frame, so that the names sort as the frames do.
fn name(path: &Path, frame: u64, digits: usize, format: Option<Format>) -> PathBuf {
    let ending = if format == Some(Format::Pgm) { "pgm" } else { "png" };
    files::beside(path, &format!(".frame-{frame:0digits$}.{ending}"))
}

/// Where the picture of a frame is written.
fn target(path: &Path, frames: Frames, frame: u64, digits: usize, wanted: &Wanted) -> PathBuf {
    match wanted.output {
        Some(output) if !is_folder(output, frames) => PathBuf::from(output),
        folder => folder.unwrap_or_else(|| Path::new("")).join(name(path, frame, digits, wanted.format)),
    }
}

/// Whether this is the name of a folder for pictures: there are several, it ends in a slash, or it is a folder without a picture's ending.
fn is_folder(path: &Path, frames: Frames) -> bool {
    let several = !matches!(frames, Frames::One(_));
    several || path.to_string_lossy().ends_with('/') || path.is_dir() && !is_picture_name(path)
}

/// What is wrong with a name for these frames, or with a format beside it, if anything; asked before anything is drawn.
pub fn objection(output: Option<&Path>, frames: Frames, format: Option<Format>) -> Option<String> {
    let path = output.filter(|path| *path != Path::new("-"))?;
    let (picture, shown) = (is_picture_name(path), files::printed(path));
    match is_folder(path, frames) {
        true if picture => Some(format!("{shown}: several frames need a folder, or - for standard output")),
        false if !picture => Some(wrong_name(path)),
        false if format.is_some() => Some(format!("{shown}: the name of the picture gives its format; leave out --as")),
        _ => None,
    }
}

/// Pictures on standard output, one after the other; their descriptions go to standard error.
fn to_standard_output(
    path: &Path,
    run: &mut Run,
    frames: Frames,
    wanted: &Wanted,
    out: &mut dyn Write,
) -> io::Result<Result<(), Failure>> {
    let (first, last) = match frames.drawable_ends(run) {
        Ok(ends) => ends,
        Err(failure) => return Ok(Err(failure)),
    };
    let format = wanted.format.unwrap_or(Format::Png);
    for frame in first..=last {
        let content = drawn(run, frame, wanted.both).and_then(|(image, about)| Ok((image.encoded(format)?, about)));
        match content {
            Ok((content, about)) => {
                out.write_all(&content)?;
                note_of(path, &about);
            }
            Err(failure) => return Ok(Err(failure)),
        }
    }
    Ok(Ok(()))
}

/// The picture of each frame in a file of its own.
fn to_files(path: &Path, run: &mut Run, frames: Frames, wanted: &Wanted, out: &mut dyn Write) -> io::Result<Status> {
    let mut lines = Lines::Out(out);
    let (first, last) = match frames.drawable_ends(run) {
        Ok(ends) => ends,
        Err(failure) => return explain(path, failure, &mut lines),
    };
    let folder = wanted.output.filter(|output| is_folder(output, frames));
    let digits = if matches!(frames, Frames::One(_)) { 1 } else { run.frames().to_string().len() };
    if !(first..=last).all(|frame| may_write(&target(path, frames, frame, digits, wanted), path)) {
        return Ok(Status::Failed);
    }
    for frame in first..=last {
        let (image, about) = match drawn(run, frame, wanted.both) {
            Ok(drawn) => drawn,
            Err(failure) => return explain(path, failure, &mut lines),
        };
        // The folder is made once there is a picture for it.
        let made = folder.filter(|_| frame == first).map(|folder| (folder, fs::create_dir_all(folder)));
        if let Some((folder, Err(error))) = made {
            note_unwritten(folder, &error);
            return Ok(Status::Failed);
        }
        let to = target(path, frames, frame, digits, wanted);
        let status = results::write_image(&image, &to, &about, &mut lines)?;
        if status != Status::Fine {
            return Ok(status);
        }
    }
    Ok(Status::Fine)
}

/// Draws frames.
pub fn show(path: &Path, frames: Frames, wanted: &Wanted, out: &mut dyn Write) -> io::Result<Status> {
    if wanted.output != Some(Path::new("-")) {
        // The names of several pictures depend on how many frames the run has.
        if matches!(frames, Frames::One(frame) if !may_write(&target(path, frames, frame, 1, wanted), path)) {
            return Ok(Status::Failed);
        }
        return match Run::open(path, wanted.form) {
            Ok(mut run) => to_files(path, &mut run, frames, wanted, out),
            Err(failure) => explain(path, failure, &mut Lines::Out(out)),
        };
    }
    let drawn = match Run::open(path, wanted.form) {
        Ok(mut run) => to_standard_output(path, &mut run, frames, wanted, out)?,
        Err(failure) => Err(failure),
    };
    drawn.map_or_else(|failure| explain(path, failure, &mut Lines::Aside), |()| Ok(Status::Fine))
}

/// Frames per second if neither the caller nor the run says how many, and the most that a PNG can say.
const RATE: u16 = 10;
const MOST_RATE: u32 = 1000;

/// An animated PNG of frames, and a description of it.
fn animated(run: &mut Run, frames: Frames, both: bool, rate: Option<u16>) -> Result<(Vec<u8>, String), Failure> {
    let (first, last) = frames.drawable_ends(run)?;
    let said = [tags::RECOMMENDED_DISPLAY_FRAME_RATE, tags::CINE_RATE]
        .into_iter()
        .find_map(|tag| run.number(tag).filter(|rate| (1..=MOST_RATE).contains(rate)));
    let rate = rate.unwrap_or_else(|| said.map_or(RATE, |rate| rate as u16));
    let count = u32::try_from(last - first + 1).unwrap_or(u32::MAX);
    let (width, height) = run.size();
    let width = if both { 2 * width } else { width };
    let mut content = Vec::new();
    let failed = |error: png::EncodingError| Failure::Trouble(format!("cannot be encoded as PNG: {error}"));
    let mut encoder = png::Encoder::new(&mut content, width as u32, height as u32);
    encoder.set_color(png::ColorType::Grayscale);
    encoder.set_depth(png::BitDepth::Eight);
    if count > 1 {
        // 0: it repeats for ever.
        encoder.set_animated(count, 0).map_err(failed)?;
        encoder.set_frame_delay(1, rate).map_err(failed)?;
    }
    let mut writer = encoder.write_header().map_err(failed)?;
    for frame in first..=last {
        writer.write_image_data(drawn(run, frame, both)?.0.cells()).map_err(failed)?;
    }
    writer.finish().map_err(failed)?;
    let kind = if both { ", beside native" } else { "" };
    Ok((content, format!("{width} x {height}, frames {first} to {last}{kind}, {rate} per second")))
}

/// Draws frames as an animated PNG.
pub fn movie(
    path: &Path,
    frames: Frames,
    rate: Option<u16>,
    wanted: &Wanted,
    out: &mut dyn Write,
) -> io::Result<Status> {
    let to = wanted.output.map_or_else(|| files::beside(path, ".movie.png"), PathBuf::from);
    if !may_write(&to, path) {
        return Ok(Status::Failed);
    }
    match Run::open(path, wanted.form).and_then(|mut run| animated(&mut run, frames, wanted.both, rate)) {
        Ok((content, about)) => results::write(Ok(content), &to, &about, &mut Lines::Out(out)),
        Err(failure) => explain(path, failure, &mut Lines::Out(out)),
    }
}

#[cfg(test)]
mod tests {
    use super::*;

    #[test]
    fn ranges_of_frames() {
        let fine = |text: &str| frames(text).unwrap_or_else(|trouble| panic!("{text}: {trouble}"));
        assert!(fine("7") == Frames::One(7) && fine("1-24") == Frames::Some(1, 24) && fine("all") == Frames::All);
        assert!(fine("3-3") == Frames::Some(3, 3) && fine("0") == Frames::One(0));
        for wrong in ["", "-", "5-", "-5", "1-2-3", "x", "1.5", "ALL", "99999999999999999999"] {
            assert!(frames(wrong).is_err(), "{wrong}");
        }
        assert!(frames("9-8").is_err_and(|trouble| trouble.contains("after")));
    }

    #[test]
    fn names_of_pictures() {
        assert_eq!(name(Path::new("a/run.xa"), 7, 3, None), Path::new("run.xa.frame-007.png"));
        assert_eq!(name(Path::new("run"), 12, 1, Some(Format::Pgm)), Path::new("run.frame-12.pgm"));
    }

    #[test]
    fn wrong_names() {
        let objects = |output: &str, frames, format| objection(Some(Path::new(output)), frames, format).is_some();
        assert!(!objects("x.png", Frames::One(1), None) && objects("x.jpg", Frames::One(1), None));
        assert!(objects("x.png", Frames::All, None) && !objects("x", Frames::All, Some(Format::Pgm)));
        assert!(
            objects("x.png", Frames::One(1), Some(Format::Pgm)) && !objects("x/", Frames::One(1), Some(Format::Pgm))
        );
        assert!(!objects("-", Frames::All, Some(Format::Pgm)) && objection(None, Frames::All, None).is_none());
    }
}
