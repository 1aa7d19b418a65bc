//! `luux sheet`: the sampling sheet of a run, as numbers, as JSON, as a small plot in the terminal, or as a picture.
//!
//! Every number comes from the library, but the mean: that is the sum of all levels divided by the number of cells.

use std::io::{self, Write};
use std::path::Path;

use crate::frames::Frames;
use crate::head::Form;
use crate::image::Image;
use crate::library::SHEET_NUMBERS;
use crate::output::{line, may_write, note_of, Lines, Object, Status};
use crate::results::{self, Failure};
use crate::run::Run;

const LEVELS: usize = 256;

/// The sampling sheet of some frames.
struct Sheet {
    first: u64,
    last: u64,
    numbers: [u64; SHEET_NUMBERS],
}

impl Sheet {
    fn counts(&self) -> &[u64] {
        &self.numbers[..LEVELS]
    }

    fn natives(&self) -> u64 {
        self.numbers[LEVELS]
    }

    fn lowest(&self) -> u64 {
        self.numbers[LEVELS + 1]
    }

    fn highest(&self) -> u64 {
        self.numbers[LEVELS + 2]
    }

    fn sum(&self) -> u64 {
        self.numbers[LEVELS + 3]
    }

    fn cells(&self) -> u64 {
        self.counts().iter().sum()
    }

    fn mean(&self) -> f64 {
        self.sum() as f64 / self.cells().max(1) as f64
    }

    fn about(&self) -> String {
        let frames = if self.first == self.last {
            format!("frame {}", self.first)
        } else {
            format!("frames {} to {}", self.first, self.last)
        };
        format!(
            "{frames}, {} native, {} cells, levels {} to {}, mean {:.2}, sum {}",
            self.natives(),
            self.cells(),
            self.lowest(),
            self.highest(),
            self.mean(),
            self.sum()
        )
    }
}

/// How the numbers are printed.
pub enum Print {
    /// A line about them, and a small plot.
    Plot,
    /// All of them, one per line, as the program `sheet_one` prints them.
    Numbers,
    /// One JSON object.
    Json,
}

/// What `luux sheet` was asked.
pub struct Wanted<'a> {
    pub form: Form,
    pub frames: Frames,
    pub print: Print,
    pub output: Option<&'a Path>,
}

fn sample(run: &mut Run, frames: Frames) -> Result<Sheet, Failure> {
    let (first, last) = frames.ends(run);
    let numbers = run.sample(first, last)?;
    Ok(Sheet { first, last, numbers })
}

/// The plot in the terminal: its columns and lines, and the characters for eighths of a line.
const COLUMNS: usize = 64;
const LINES: usize = 8;
const EIGHTHS: [char; 9] = [' ', '▁', '▂', '▃', '▄', '▅', '▆', '▇', '█'];

/// Each column is the counts of four levels; the highest is as high as the plot. A column with a count above 0 is never empty.
fn print_plot(sheet: &Sheet, out: &mut dyn Write) -> io::Result<()> {
    let width = LEVELS / COLUMNS;
    let columns: Vec<u64> = sheet.counts().chunks(width).map(|levels| levels.iter().sum()).collect();
    let most = columns.iter().copied().max().unwrap_or(1).max(1);
    let heights: Vec<usize> = columns
        .iter()
        .map(|&count| ((count as f64 / most as f64 * (LINES * 8) as f64) as usize).max(usize::from(count > 0)))
        .collect();
    for below in (0..LINES).rev() {
        let text: String = heights.iter().map(|&height| EIGHTHS[height.saturating_sub(8 * below).min(8)]).collect();
        writeln!(out, "  {}", text.trim_end())?;
    }
    writeln!(out, "  {}", "─".repeat(COLUMNS))?;
    writeln!(out, "  0{:>32}{:>31}", "128", "255")
}

fn print_json(path: &Path, sheet: &Sheet, out: &mut dyn Write) -> io::Result<()> {
    let mut object = Object::about(path);
    for (name, number) in [
        ("first", sheet.first),
        ("last", sheet.last),
        ("native", sheet.natives()),
        ("lowest", sheet.lowest()),
        ("highest", sheet.highest()),
        ("sum", sheet.sum()),
    ] {
        object.put(name, number);
    }
    object.put("counts", sheet.counts());
    out.write_all(object.line().as_bytes())
}

/// The picture: a column for each level, three cells wide, within a margin; marks below for the lowest, highest and mean level.
const WIDE: usize = 3;
const HIGH: usize = 320;
const MARGIN: usize = 12;
const MARKS: usize = 16;
const PAPER: u8 = 255;
const INK: u8 = 40;
const PALE: u8 = 170;

fn plotted(sheet: &Sheet) -> Result<Image<u8>, String> {
    let (width, height) = (LEVELS * WIDE + 2 * MARGIN, HIGH + 2 * MARGIN + MARKS);
    let mut image = Image::new(width, height, PAPER)?;
    let foot = MARGIN + HIGH;
    let most = sheet.counts().iter().copied().max().unwrap_or(1).max(1);
    // The mean is drawn behind the columns, the lowest and highest level below them.
    let mean = MARGIN + ((sheet.mean() + 0.5) * WIDE as f64) as usize;
    for y in (MARGIN..foot).filter(|y| y % 4 < 2) {
        image.put(mean, y, PALE);
    }
    for (level, &count) in sheet.counts().iter().enumerate() {
        let tall = ((count as f64 / most as f64 * HIGH as f64) as usize).max(usize::from(count > 0));
        for y in foot - tall..foot {
            for x in 0..WIDE {
                image.put(MARGIN + level * WIDE + x, y, INK);
            }
        }
    }
    for x in MARGIN..MARGIN + LEVELS * WIDE {
        image.put(x, foot, INK);
    }
    for (mark, tall) in [(sheet.lowest(), MARKS), (sheet.highest(), MARKS)] {
        for y in foot..foot + tall {
            image.put(MARGIN + mark as usize * WIDE + WIDE / 2, y, INK);
        }
    }
    for y in foot..foot + MARKS / 2 {
        for x in mean.saturating_sub((foot + MARKS / 2 - y) / 2)..=mean + (foot + MARKS / 2 - y) / 2 {
            image.put(x, y + MARKS / 2, INK);
        }
    }
    Ok(image)
}

/// The picture of the sheet of all frames, and a line about it.
pub fn plot(run: &mut Run) -> Result<(Image<u8>, String), Failure> {
    let sheet = sample(run, Frames::All)?;
    Ok((plotted(&sheet)?, sheet.about()))
}

/// Samples a run. Numbers and JSON are for another program, so whatever else there is to say goes to standard error.
pub fn run(path: &Path, wanted: &Wanted, out: &mut dyn Write) -> io::Result<Status> {
    if wanted.output.map_or(false, |to| !may_write(to, path)) {
        return Ok(Status::Failed);
    }
    let sampled = Run::open(path, wanted.form).and_then(|mut run| sample(&mut run, wanted.frames));
    let plain = matches!(wanted.print, Print::Plot);
    let sheet = match sampled {
        Ok(sheet) => sheet,
        Err(failure) if plain => return results::explain(path, failure, &mut Lines::Out(out)),
        Err(failure) => return results::explain(path, failure, &mut Lines::Aside),
    };
    match wanted.print {
        Print::Plot => {
            line(out, path, &sheet.about())?;
            print_plot(&sheet, out)?;
        }
        Print::Numbers => {
            for number in sheet.numbers {
                writeln!(out, "{number}")?;
            }
        }
        Print::Json => print_json(path, &sheet, out)?,
    }
    let Some(to) = wanted.output else {
        return Ok(Status::Fine);
    };
    let mut lines = if plain { Lines::Out(out) } else { Lines::Aside };
    match plotted(&sheet) {
        Ok(image) => results::write_image(&image, to, "plot", &mut lines),
        Err(trouble) => {
            note_of(path, &trouble);
            Ok(Status::Failed)
        }
    }
}
