//! `luux contact` and `luux linear`: frames on a sheet, or mapped back to beam intensity.
//!
//! No cell is computed here. A contact sheet takes every k-th cell of every k-th row of a drawn frame.

use std::io::{self, Write};
use std::path::{Path, PathBuf};

use crate::files;
use crate::head::Form;
use crate::image::{sampled_size, Image};
use crate::output::{may_write, Lines, Status};
use crate::results::{self, Failure};
use crate::run::Run;

/// At most `most` frames, spread evenly over the run, from the first to the last.
pub fn chosen(frames: u64, most: u64) -> Vec<u64> {
    let count = frames.min(most);
    (0..count).map(|k| 1 + k * (frames - 1) / (count - 1).max(1)).collect()
}

/// The most frames on a contact sheet, and in one line of it.
const SHEET: u64 = 24;
const ACROSS: usize = 6;
/// The longest side of a frame on it, and the gap between frames.
const SIDE: usize = 192;
const GAP: usize = 4;
/// A label is the frame's number in digits of 3 x 5 dots, each dot 2 x 2 cells.
const DOT: usize = 2;
const LABEL_HEIGHT: usize = 5 * DOT + GAP;
const LABEL_WIDTH: usize = 5 * 4 * DOT;
const PAPER: u8 = 40;
const INK: u8 = 255;

/// The digits 0 to 9: five lines of three dots, the highest bit first.
const DIGITS: [u16; 10] = [
    0b111_101_101_101_111,
    0b010_110_010_010_111,
    0b111_001_111_100_111,
    0b111_001_111_001_111,
    0b101_101_111_001_001,
    0b111_100_111_001_111,
    0b111_100_111_101_111,
    0b111_001_001_010_010,
    0b111_101_111_101_111,
    0b111_101_111_001_111,
];

fn put_label(sheet: &mut Image<u8>, left: usize, top: usize, frame: u64) {
    for (place, digit) in frame.to_string().bytes().enumerate() {
        let dots = DIGITS[usize::from(digit - b'0')];
        for dot in (0..15).filter(|dot| dots >> (14 - dot) & 1 == 1) {
            for cell in 0..DOT * DOT {
                let x = left + (place * 4 + dot % 3) * DOT + cell % DOT;
                let y = top + dot / 3 * DOT + cell / DOT;
                sheet.put(x, y, INK);
            }
        }
    }
}

/// The sheet, and the frames on it.
fn sheet_of(run: &mut Run) -> Result<(Image<u8>, Vec<u64>), Failure> {
    let frames = chosen(run.frames(), SHEET);
    let (width, height) = sampled_size(run.size().0, run.size().1, SIDE);
    let (across, down) = (frames.len().min(ACROSS), (frames.len() + ACROSS - 1) / ACROSS);
    let (wide, high) = (width.max(LABEL_WIDTH) + GAP, height + LABEL_HEIGHT + GAP);
    let mut sheet = Image::new(across * wide + GAP, down * high + GAP, PAPER)?;
    for (place, &frame) in frames.iter().enumerate() {
        let image = run.draw(frame)?.0.sampled(SIDE);
        let (left, top) = (GAP + place % ACROSS * wide, GAP + place / ACROSS * high);
        for y in 0..height {
            for x in 0..width {
                sheet.put(left + x, top + y, image.cells()[y * width + x]);
            }
        }
        put_label(&mut sheet, left, top + height + GAP / 2, frame);
    }
    Ok((sheet, frames))
}

/// Draws a contact sheet.
pub fn contact(path: &Path, form: Form, to: Option<&Path>, out: &mut dyn Write) -> io::Result<Status> {
    let to = to.map_or_else(|| files::beside(path, ".contact.png"), PathBuf::from);
    if !may_write(&to, path) {
        return Ok(Status::Failed);
    }
    match Run::open(path, form).and_then(|mut run| sheet_of(&mut run).map(|sheet| (sheet, run.frames()))) {
        Ok(((sheet, frames), all)) => {
            let named: Vec<String> = frames.iter().map(u64::to_string).collect();
            let about = format!("{} of {all} frames: {}", frames.len(), named.join(" "));
            results::write_image(&sheet, &to, &about, &mut Lines::Out(out))
        }
        Err(failure) => results::explain(path, failure, &mut Lines::Out(out)),
    }
}

/// Maps one frame back to beam intensity.
pub fn linear(path: &Path, form: Form, frame: u64, to: Option<&Path>, out: &mut dyn Write) -> io::Result<Status> {
    let to = to.map_or_else(|| files::beside(path, &format!(".linear-{frame}.png")), PathBuf::from);
    if !may_write(&to, path) {
        return Ok(Status::Failed);
    }
    match Run::open(path, form).and_then(|mut run| run.map(frame)) {
        Ok(image) => results::write_image(&image, &to, &format!("frame {frame}, linear"), &mut Lines::Out(out)),
        Err(failure) => results::explain(path, failure, &mut Lines::Out(out)),
    }
}

/// Prints the numbers of a frame, a line for each row, separated by commas. Nothing else goes to standard output.
pub fn linear_text(path: &Path, form: Form, frame: u64, out: &mut dyn Write) -> io::Result<Status> {
    match Run::open(path, form).and_then(|mut run| run.map(frame)) {
        Ok(image) => {
            for row in image.cells().chunks(image.width().max(1)) {
                let numbers: Vec<String> = row.iter().map(u16::to_string).collect();
                writeln!(out, "{}", numbers.join(","))?;
            }
            Ok(Status::Fine)
        }
        Err(failure) => results::explain(path, failure, &mut Lines::Aside),
    }
}

#[cfg(test)]
mod tests {
    use super::*;

    #[test]
    fn frames_are_spread_evenly() {
        assert_eq!(chosen(1, 6), [1]);
        assert_eq!(chosen(4, 6), [1, 2, 3, 4]);
        assert_eq!(chosen(100, 3), [1, 50, 100]);
        assert!(chosen(0, 6).is_empty());
        assert_eq!((chosen(65_535, 24).len(), chosen(65_535, 24)[23]), (24, 65_535));
    }
}
