//! The row buffer that is lent to the library.
//!
//! A header has at least 8 bytes, so there are at most size / 8 rows. If that much memory is free, room for all of them is lent at first: the
//! library writes the rows of a data set and nothing beyond them, and pages that are not written to take no memory. Once the number of rows
//! is known, the rest is given back, and from then on room for exactly that many is lent. If the memory is not free, the library
//! counts the rows first (`library::count`), which takes half as long as reading them, and room for exactly that many is lent.

use crate::codes::{Code, Coded};
use crate::head::Form;
use crate::library::{self, Answer, Compared, Memory, Rewritten, ROW_WIDTH};
use crate::memory::{self, Granted};
use crate::table::Table;

/// Rows for which memory is kept from one file to the next: 112 KiB, not counted by `--memory`.
const KEPT: usize = 4096;

/// The bytes of a row.
const ROW_BYTES: u64 = ROW_WIDTH as u64 * 4;

/// The rows need so many bytes, which are not free.
pub struct NoRoom(pub u64);

/// An answer that may say how many rows were written.
trait Filling: Coded {
    fn rows(&self) -> Option<u32>;
}

impl Filling for Answer {
    fn rows(&self) -> Option<u32> {
        matches!(self.code(), Code::Done | Code::RuleBroken).then_some(self.rows)
    }
}

impl Filling for Rewritten {
    fn rows(&self) -> Option<u32> {
        self.is_done().then_some(self.rows)
    }
}

impl Filling for Compared {
    fn rows(&self) -> Option<u32> {
        self.answer.rows()
    }
}

/// A buffer for rows, used for one file after another.
#[derive(Default)]
pub struct RowBuffer {
    memory: Memory,
    /// How many rows of it are lent.
    room: usize,
    /// The memory granted for the rows beyond those that are kept.
    granted: Granted,
    /// Address and length of the bytes that the room is known to suffice for.
    enough: Option<(usize, usize)>,
}

impl RowBuffer {
    /// Reads a data set.
    pub fn read(&mut self, form: Form, data: &[u8]) -> Result<Answer, String> {
        match form {
            Form::File => self.lend(form, data, library::read_file),
            Form::Bare => self.lend(form, data, library::read),
        }
    }

    /// Judges a data set.
    pub fn judge(&mut self, form: Form, data: &[u8]) -> Result<Answer, String> {
        match form {
            Form::File => self.lend(form, data, library::judge_file),
            Form::Bare => self.lend(form, data, library::judge),
        }
    }

    /// Draws a frame into the image.
    pub fn show(&mut self, form: Form, data: &[u8], frame: u64, image: &mut [u8]) -> Result<Answer, String> {
        match form {
            Form::File => self.lend(form, data, |data, rows| library::show_file(data, frame, rows, image)),
            Form::Bare => self.lend(form, data, |data, rows| library::show(data, frame, rows, image)),
        }
    }

    /// Writes the canonical form of a data set into the target, which suffices if it is as long as the data set.
    pub fn canonical(&mut self, data: &[u8], target: &mut [u8]) -> Result<Rewritten, String> {
        self.lend(Form::Bare, data, |data, rows| library::canonical(data, rows, target))
    }

    /// Maps a frame into the values.
    pub fn linear(&mut self, data: &[u8], frame: u64, values: &mut [u16]) -> Result<Answer, String> {
        self.lend(Form::Bare, data, |data, rows| library::linear(data, frame, rows, values))
    }

    /// Counts the grey levels of frames.
    pub fn sheet(&mut self, data: &[u8], first: u64, last: u64, sheet: &mut [u64]) -> Result<Answer, String> {
        self.lend(Form::Bare, data, |data, rows| library::sheet(data, first, last, rows, sheet))
    }

    /// Compares another workstation's picture with a frame.
    pub fn compare(&mut self, data: &[u8], frame: u64, cells: &[u8], tolerance: u64) -> Result<Compared, String> {
        self.lend(Form::Bare, data, |data, rows| library::compare(data, frame, cells, tolerance, rows))
    }

    /// The first `rows` rows.
    pub fn table(&self, rows: u32) -> Table<'_> {
        let end = (rows as usize).saturating_mul(ROW_WIDTH).min(self.memory.numbers().len());
        Table(&self.memory.numbers()[..end])
    }

    /// Takes memory for rows that was granted before.
    pub fn take(&mut self, granted: Granted) {
        self.granted = granted;
    }

    /// Gives back what a large file needed.
    pub fn let_go(&mut self) {
        if self.memory.numbers().len() > KEPT * ROW_WIDTH {
            self.memory = Memory::default();
            self.room = 0;
        }
        self.granted = Granted::default();
        self.enough = None;
    }

    /// Makes room for the rows of a data set, if the memory is free.
    pub fn fit(&mut self, form: Form, data: &[u8]) -> Result<(), NoRoom> {
        let data_set = form.data_set(data);
        if self.grow(most_rows(data_set.len())).is_err() {
            self.grow(library::count(data_set))?;
        }
        self.enough = Some(place(data));
        Ok(())
    }

    /// Makes a call with room for the rows. The room for the same bytes is not worked out again; if other bytes have taken their place,
    /// and have more rows, the library says so.
    fn lend<A: Filling>(
        &mut self,
        form: Form,
        data: &[u8],
        mut call: impl FnMut(&[u8], &mut [u32]) -> A,
    ) -> Result<A, String> {
        if self.enough == Some(place(data)) {
            let answer = call(data, self.lent());
            if answer.code() != Code::NoRoomForRows {
                return Ok(answer);
            }
        }
        self.fit(form, data)
            .map_err(|NoRoom(bytes)| format!("for its rows {}", memory::too_much(bytes, memory::limit())))?;
        let answer = call(data, self.lent());
        if let Some(rows) = answer.rows() {
            self.keep(rows as usize);
        }
        Ok(answer)
    }

    fn lent(&mut self) -> &mut [u32] {
        &mut self.memory.numbers_mut()[..self.room * ROW_WIDTH]
    }

    fn grow(&mut self, rows: usize) -> Result<(), NoRoom> {
        if rows <= self.room {
            return Ok(());
        }
        let bytes = rows.max(KEPT) as u64 * ROW_BYTES;
        let large_enough = self.memory.bytes().len() as u64 >= bytes;
        if !large_enough {
            // Its content is not needed, so nothing is copied.
            self.memory = Memory::default();
            self.room = 0;
        }
        if rows > KEPT && !self.granted.grow_to(bytes) {
            return Err(NoRoom(bytes));
        }
        if !large_enough {
            self.memory = Memory::of(bytes as usize).map_err(|_| NoRoom(bytes))?;
        }
        self.room = rows.max(KEPT);
        Ok(())
    }

    /// Gives back the room beyond so many rows, which are all that were written.
    fn keep(&mut self, rows: usize) {
        let rows = rows.max(KEPT);
        if rows < self.room {
            self.room = rows;
            self.granted.shrink_to(if rows > KEPT { rows as u64 * ROW_BYTES } else { 0 });
        }
    }
}

fn most_rows(size: usize) -> usize {
    size / 8
}

/// The most memory that the rows of a data set of this size can need.
pub fn most_room(size: u64) -> u64 {
    size / 8 * ROW_BYTES
}

fn place(data: &[u8]) -> (usize, usize) {
    (data.as_ptr() as usize, data.len())
}
