//! `luux compare`: another workstation's pictures against ours.
//!
//! The library says whether a picture passes, which cell is the first that does not, and how many do not; our levels are those of the frame
//! as the library draws it.

use std::fs;
use std::io::{self, Write};
use std::path::{Path, PathBuf};

use crate::files::{self, Opened};
use crate::head::Form;
use crate::image::{format_of, Format, Image};
use crate::library::Compared;
use crate::output::{line, may_write, note_of, Lines, Status};
use crate::results::{self, explain, Failure};
use crate::run::Run;
use crate::values::counted;

/// A cell in the picture of differences: white where the pictures differ, else our level, dimmed.
const OFF: u8 = 255;
const DIMMED: u8 = 3;

/// The cells of a picture, and its width and height if the file gives them.
struct Cells {
    levels: Vec<u8>,
    size: Option<(usize, usize)>,
}

/// An 8-bit PGM: `P5`, width, height and 255, separated by blanks, one blank, the cells.
fn read_pgm(content: &[u8]) -> Option<Cells> {
    let mut rest = content.strip_prefix(b"P5")?;
    let mut numbers = [0; 3];
    for number in &mut numbers {
        let start = rest.iter().position(|byte| !byte.is_ascii_whitespace()).filter(|&blanks| blanks > 0)?;
        rest = &rest[start..];
        let digits = rest.iter().position(|byte| !byte.is_ascii_digit()).unwrap_or(rest.len());
        *number = std::str::from_utf8(&rest[..digits]).ok()?.parse().ok()?;
        rest = &rest[digits..];
    }
    let [width, height, highest] = numbers;
    let (blank, levels) = rest.split_first()?;
    let whole = highest == 255 && blank.is_ascii_whitespace() && levels.len() == usize::checked_mul(width, height)?;
    whole.then(|| Cells { levels: levels.to_vec(), size: Some((width, height)) })
}

/// An 8-bit grey PNG.
fn read_png(content: &[u8]) -> Option<Cells> {
    let mut reader = png::Decoder::new(content).read_info().ok()?;
    let info = reader.info();
    if info.color_type != png::ColorType::Grayscale || info.bit_depth != png::BitDepth::Eight {
        return None;
    }
    let (width, height) = (info.width as usize, info.height as usize);
    let mut levels = Vec::new();
    levels.try_reserve_exact(width.checked_mul(height)?).ok()?;
    levels.resize(width * height, 0);
    reader.next_frame(&mut levels).ok()?;
    Some(Cells { levels, size: Some((width, height)) })
}

/// A picture, by the ending of its name: .png, .pgm, or any other for plain cells, one byte each.
fn read_cells(path: &Path) -> Result<Cells, String> {
    let opened = Opened::open(path)?;
    let content = opened.bytes();
    match format_of(path) {
        Some(Format::Png) => read_png(content).ok_or_else(|| String::from("not an 8-bit grey PNG")),
        Some(Format::Pgm) => read_pgm(content).ok_or_else(|| String::from("not a PGM (P5) with levels 0 to 255")),
        None => Ok(Cells { levels: content.to_vec(), size: None }),
    }
    .and_then(|cells| opened.unchanged().map(|()| cells))
}

/// The line about a picture that was compared.
fn about(found: &Compared, frame: u64, tolerance: u64, ours: &Image<u8>, theirs: &[u8]) -> String {
    if found.same == 1 {
        return format!("frame {frame}: yes, every cell is within {tolerance} of ours");
    }
    let first = found.first as usize;
    let width = ours.width().max(1);
    format!(
        "frame {frame}: no, {} of {} cells are more than {tolerance} away; the first, at row {}, column {} from 0, is {}, ours is {}",
        found.count,
        theirs.len(),
        first / width,
        first % width,
        theirs.get(first).copied().unwrap_or(0),
        ours.cells().get(first).copied().unwrap_or(0)
    )
}

/// Our picture, dimmed, with white where the pictures are more than the tolerance apart.
fn differences(ours: &Image<u8>, theirs: &[u8], tolerance: u64) -> Result<Image<u8>, String> {
    let mut image = Image::new(ours.width(), ours.height(), 0)?;
    for (place, (&our, &their)) in ours.cells().iter().zip(theirs).enumerate() {
        let off = u64::from(our.abs_diff(their)) > tolerance;
        image.put(place % ours.width(), place / ours.width(), if off { OFF } else { our / DIMMED });
    }
    Ok(image)
}

/// Compares one picture, and says whether it passed.
fn one(run: &mut Run, frame: u64, path: &Path, wanted: &Wanted, out: &mut dyn Write) -> io::Result<Status> {
    let cells = match read_cells(path) {
        Ok(cells) => cells,
        Err(trouble) => {
            note_of(path, &trouble);
            return Ok(Status::Failed);
        }
    };
    let (width, height) = run.size();
    if let Some((theirs_wide, theirs_high)) = cells.size.filter(|&size| size != (width, height)) {
        let text = format!("it is {theirs_wide} x {theirs_high}, but a frame of the run is {width} x {height}");
        return explain(path, Failure::Refused(text), &mut Lines::Out(out));
    }
    let compared =
        run.compare(frame, &cells.levels, wanted.tolerance).and_then(|found| Ok((found, run.draw(frame)?.0)));
    let (found, ours) = match compared {
        Ok(compared) => compared,
        Err(failure) => return explain(path, failure, &mut Lines::Out(out)),
    };
    line(out, path, &about(&found, frame, wanted.tolerance, &ours, &cells.levels))?;
    let passed = if found.same == 1 { Status::Fine } else { Status::Refused };
    let Some(to) = wanted.output else {
        return Ok(passed);
    };
    let drawn = match differences(&ours, &cells.levels, wanted.tolerance) {
        Ok(image) => {
            let about = format!("frame {frame}, white where it differs");
            results::write_image(&image, to, &about, &mut Lines::Out(out))?
        }
        Err(trouble) => {
            note_of(to, &trouble);
            Status::Failed
        }
    };
    Ok(passed.max(drawn))
}

/// The last number in the name of a picture, before its ending.
fn number_in(path: &Path) -> Option<u64> {
    let name = path.file_stem()?.to_str()?;
    let end = name.rfind(|letter: char| letter.is_ascii_digit())? + 1;
    let start = name[..end].rfind(|letter: char| !letter.is_ascii_digit()).map_or(0, |place| place + 1);
    name[start..end].parse().ok()
}

/// The pictures of a folder, in the order of their frames.
fn numbered(folder: &Path) -> io::Result<Vec<(u64, PathBuf)>> {
    let mut pictures = Vec::new();
    for entry in fs::read_dir(folder)? {
        let path = entry?.path();
        if !path.is_file() {
            continue;
        }
        match number_in(&path) {
            Some(frame) => pictures.push((frame, path)),
            None => note_of(&path, "skipped: its name has no frame number"),
        }
    }
    pictures.sort();
    Ok(pictures)
}

/// How pictures are compared, and how the run's file is read.
pub struct Wanted<'a> {
    pub form: Form,
    pub tolerance: u64,
    pub output: Option<&'a Path>,
}

/// Compares a picture with a frame of a run.
pub fn picture(path: &Path, frame: u64, other: &Path, wanted: &Wanted, out: &mut dyn Write) -> io::Result<Status> {
    if wanted.output.map_or(false, |to| !may_write(to, path) || !may_write(to, other)) {
        return Ok(Status::Failed);
    }
    match Run::open(path, wanted.form) {
        Ok(mut run) => one(&mut run, frame, other, wanted, out),
        Err(failure) => explain(path, failure, &mut Lines::Out(out)),
    }
}

/// Compares all pictures of a folder with the frames that their names give.
pub fn folder(path: &Path, folder: &Path, wanted: &Wanted, out: &mut dyn Write) -> io::Result<Status> {
    let pictures = match numbered(folder) {
        Ok(pictures) => pictures,
        Err(error) => {
            note_of(folder, &format!("cannot be listed: {}", files::trouble(&error)));
            return Ok(Status::Failed);
        }
    };
    if pictures.is_empty() {
        note_of(folder, "no file in it has a frame number in its name");
        return Ok(Status::Failed);
    }
    let mut run = match Run::open(path, wanted.form) {
        Ok(run) => run,
        Err(failure) => return explain(path, failure, &mut Lines::Out(out)),
    };
    let mut worst = Status::Fine;
    let mut passed = 0;
    for (frame, other) in &pictures {
        let status = one(&mut run, *frame, other, wanted, out)?;
        passed += usize::from(status == Status::Fine);
        worst = worst.max(status);
    }
    writeln!(
        out,
        "{}, {passed} yes; the run has {}",
        counted(pictures.len(), "picture"),
        counted(run.frames() as usize, "frame")
    )?;
    Ok(worst)
}

#[cfg(test)]
mod tests {
    use super::*;

    #[test]
    fn pgm_files() {
        let read = |content: &[u8]| read_pgm(content).map(|cells| (cells.levels, cells.size.unwrap_or_default()));
        assert_eq!(read(b"P5\n2 1\n255\n\x07\x08"), Some((vec![7, 8], (2, 1))));
        assert_eq!(read(b"P5 \t1\r\n2 255 \n\n"), Some((vec![b'\n', b'\n'], (1, 2))));
        assert_eq!(read(b"P5 0 7 255 "), Some((Vec::new(), (0, 7))));
        let wrong: [&[u8]; 11] = [
            b"",
            b"P5",
            b"P6 2 1 255 ab",
            b"P52 1 255 ab",
            b"P5 2 1 255 a",
            b"P5 2 1 255 abc",
            b"P5 2 1 65535 abcd",
            b"P5 2 1 255",
            b"P5 2 1 255xab",
            b"P5 -2 1 255 ab",
            b"P5 18446744073709551615 18446744073709551615 255 ab",
        ];
        assert!(wrong.iter().all(|content| read_pgm(content).is_none()));
    }

    #[test]
    fn png_files() {
        let image = Image::new(3, 2, 9u8).unwrap();
        let read = read_png(&image.encoded(Format::Png).unwrap()).unwrap();
        assert_eq!((read.levels, read.size), (vec![9; 6], Some((3, 2))));
        let deep = Image::new(3, 2, 9u16).unwrap().encoded(Format::Png).unwrap();
        assert!(read_png(&deep).is_none() && read_png(&deep[..40]).is_none() && read_png(b"").is_none());
    }

    #[test]
    fn frames_by_name() {
        let number = |name: &str| number_in(Path::new(name));
        assert_eq!(["frame-007.png", "7", "a/2024/run3.frame-12.raw", "x1y"].map(number), [7, 7, 12, 1].map(Some));
        // The ending does not count, nor does a number that no frame has.
        assert_eq!(["frame.p5", "readme", "", "99999999999999999999"].map(number), [None; 4]);
    }

    #[test]
    fn white_where_they_differ() {
        let mut ours = Image::new(2, 2, 90u8).unwrap();
        ours.put(1, 1, 3);
        let drawn = |tolerance| differences(&ours, &[90, 93, 87, 0], tolerance).unwrap().cells().to_vec();
        assert_eq!(drawn(3), [30, 30, 30, 1]);
        assert_eq!(drawn(2), [30, OFF, OFF, OFF]);
    }
}
