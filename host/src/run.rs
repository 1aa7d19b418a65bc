//! An accepted run, ready to be drawn, sampled, mapped and compared by the library. No cell is computed here.

use std::path::Path;

use crate::buffer::{NoRoom, RowBuffer};
use crate::codes::{Code, Coded};
use crate::files::Opened;
use crate::head::{Form, Judged};
use crate::image::Image;
use crate::library::{Answer, Compared, SHEET_NUMBERS};
use crate::memory::Granted;
use crate::names::tags;
use crate::other;
use crate::results::Failure;
use crate::sentences;
use crate::table::Table;
use crate::values::Source;

/// The verdict on a file, with its run if that is accepted, else with what the file is if it is certainly no run; or why there is no verdict.
pub type Looked = Result<(Judged, Result<Run, Option<String>>), String>;

/// An accepted run, ready to be drawn from.
pub struct Run {
    opened: Opened,
    form: Form,
    /// Where the data set starts in the file.
    start: usize,
    buffer: RowBuffer,
    width: usize,
    height: usize,
    frames: u64,
    rows: u32,
    /// A copy of the file in which no mask applies, once one was needed, and the memory for it.
    unmasked: Option<(Vec<u8>, Granted)>,
}

impl Run {
    pub fn open(path: &Path, form: Form) -> Result<Run, Failure> {
        let (judged, run) = Run::judged(path, form)?;
        run.map_err(|_| Failure::Refused(judged.line()))
    }

    /// The same with the verdict. It waits until there is enough memory, so only a caller who holds none may use it.
    pub fn judged(path: &Path, form: Form) -> Looked {
        let mut more = 0;
        for _ in 0..2 {
            match Run::attempt(path, form, more) {
                Ok(judged) => return judged,
                Err(NoRoom(bytes)) => more = bytes,
            }
        }
        Err(format!("cannot be judged: not enough memory for its rows, {more} bytes"))
    }

    /// The same within the memory for its bytes and `more`; or how much more it needs. Width, height and the number of frames come from
    /// the rows.
    pub fn attempt(path: &Path, form: Form, more: u64) -> Result<Looked, NoRoom> {
        let mut opened = match Opened::with_room(path, more) {
            Ok(opened) => opened,
            Err(trouble) => return Ok(Err(trouble)),
        };
        let mut buffer = RowBuffer::default();
        buffer.take(opened.room(more));
        buffer.fit(form, opened.bytes())?;
        Ok(Run::of(opened, form, buffer))
    }

    fn of(opened: Opened, form: Form, mut buffer: RowBuffer) -> Looked {
        let content = opened.bytes();
        let answer = buffer.judge(form, content)?;
        let table = buffer.table(answer.rows);
        let judged = Judged::of(form, content, answer, table);
        if !answer.is_done() {
            // With --bare the user says that every file is a data set.
            let what = if form == Form::File { other::what(content, &answer, &mut buffer) } else { None };
            return opened.unchanged().map(|()| (judged, Err(what)));
        }
        let start = form.start(content);
        let data = &content[start..];
        // In an accepted run the per-frame groups have one item for each frame.
        let frames = table.frame_items().count() as u64;
        match (number_of(data, table, tags::ROWS), number_of(data, table, tags::COLUMNS)) {
            (Some(height), Some(width)) => {
                let run = Run { opened, form, start, buffer, width, height, frames, rows: answer.rows, unmasked: None };
                Ok((judged, Ok(run)))
            }
            _ => Err(String::from("its rows do not give the size of a frame")),
        }
    }

    /// A frame, and whether it is masked.
    pub fn draw(&mut self, frame: u64) -> Result<(Image<u8>, bool), Failure> {
        let mut image = Image::new(self.width, self.height, 0)?;
        let answer = self.buffer.show(self.form, self.opened.bytes(), frame, image.cells_mut())?;
        self.done(answer).map(|()| (image, answer.masked == 1))
    }

    /// A frame without its mask, as the library draws it from a copy in which the operation of each mask item is NONE: with the same window,
    /// neither subtracted nor moved. NONE fits into the value of every operation that an accepted run can have.
    pub fn draw_unmasked(&mut self, frame: u64) -> Result<Image<u8>, Failure> {
        if self.unmasked.is_none() {
            self.unmasked = Some(self.without_masks()?);
        }
        let copy = self.unmasked.as_ref().map_or(&[][..], |(copy, _)| copy);
        let mut image = Image::new(self.width, self.height, 0)?;
        let answer = self.buffer.show(self.form, copy, frame, image.cells_mut())?;
        match self.done(answer) {
            Ok(()) if answer.masked == 0 => Ok(image),
            Ok(()) => Err(Failure::Trouble(String::from("its copy without masks was drawn masked"))),
            Err(failure) => Err(failure),
        }
    }

    fn without_masks(&self) -> Result<(Vec<u8>, Granted), String> {
        let content = self.opened.bytes();
        let granted =
            Granted::now(content.len() as u64).map_err(|text| format!("for its copy without masks {text}"))?;
        let mut copy = Vec::new();
        if copy.try_reserve_exact(content.len()).is_err() {
            return Err(format!("not enough memory for a copy of {} bytes", content.len()));
        }
        copy.extend_from_slice(content);
        let table = self.buffer.table(self.rows);
        for item in table.items(0, tags::MASK_SUBTRACTION_SEQUENCE) {
            let Some(operation) = table.element(item.number, tags::MASK_OPERATION) else {
                continue;
            };
            let at = self.start + operation.offset as usize;
            if let Some(value) = copy.get_mut(at..at + operation.length as usize) {
                value.fill(b' ');
                value.iter_mut().zip(b"NONE").for_each(|(place, letter)| *place = *letter);
            }
        }
        Ok((copy, granted))
    }

    /// A frame in numbers that are linear to beam intensity.
    pub fn map(&mut self, frame: u64) -> Result<Image<u16>, Failure> {
        let mut image = Image::new(self.width, self.height, 0)?;
        let answer = self.buffer.linear(&self.opened.bytes()[self.start..], frame, image.cells_mut())?;
        self.done(answer).map(|()| image)
    }

    /// The number that an element at the root has as text.
    pub fn number(&self, tag: u32) -> Option<u32> {
        let source = Source::of(&self.opened.bytes()[self.start..], self.buffer.table(self.rows));
        source.text(&source.table.root(tag)?).trim().parse().ok()
    }

    /// How many frames it has.
    pub fn frames(&self) -> u64 {
        self.frames
    }

    /// Width and height of a frame.
    pub fn size(&self) -> (usize, usize) {
        (self.width, self.height)
    }

    /// Another workstation's picture of a frame against ours.
    pub fn compare(&mut self, frame: u64, cells: &[u8], tolerance: u64) -> Result<Compared, Failure> {
        let found = self.buffer.compare(&self.opened.bytes()[self.start..], frame, cells, tolerance)?;
        self.done(found.answer).map(|()| found)
    }

    /// The sampling sheet of frames.
    pub fn sample(&mut self, first: u64, last: u64) -> Result<[u64; SHEET_NUMBERS], Failure> {
        let mut numbers = [0; SHEET_NUMBERS];
        let answer = self.buffer.sheet(&self.opened.bytes()[self.start..], first, last, &mut numbers)?;
        self.done(answer).map(|()| numbers)
    }

    /// Whether a call did what it was asked, on a file that has not changed.
    fn done(&self, answer: Answer) -> Result<(), Failure> {
        self.opened.unchanged()?;
        match answer.code() {
            Code::Done => Ok(()),
            Code::NoSuchFrame => {
                let text = format!("{}; the run has frames 1 to {}", sentences::answer(&answer, 0, None), self.frames);
                Err(Failure::Refused(text))
            }
            _ => Err(Failure::Refused(sentences::answer(&answer, 0, None))),
        }
    }
}

/// The two bytes of a root element as a number.
fn number_of(data: &[u8], table: Table, tag: u32) -> Option<usize> {
    let offset = table.root(tag)?.offset as usize;
    match data.get(offset..offset + 2) {
        Some(&[low, high]) => Some(usize::from(u16::from_le_bytes([low, high]))),
        _ => None,
    }
}
