//! The calls of the proved library that the tool makes, memory for files and rows, and leases and mappings of files. All `unsafe` code of the
//! host is here.
//!
//! `include/luuxidgaan.h` says what the calls answer. They ask two things of the caller: each pointer leads to as many
//! elements as its size says, and buffers do not overlap. Slices guarantee both: a shared slice does not change while it is lent, and
//! a mutable one belongs to nobody else.

#![allow(unsafe_code)]

use std::fs::File;
use std::io;
use std::os::unix::io::AsRawFd;

use serde::{Deserialize, Serialize};

use crate::codes::{Code, Coded};

/// `xa_answer` of the header: fields that the code does not name are 0.
#[repr(C)]
#[derive(Clone, Copy, Debug, Default, PartialEq, Eq, Serialize, Deserialize)]
pub struct Answer {
    code: u32,
    pub offset: u32,
    pub rows: u32,
    pub rule: u32,
    pub frame: u32,
    pub masked: u32,
    pub searches: u64,
}

/// `xa_slip` of the header.
#[repr(C)]
#[derive(Clone, Copy, Debug, PartialEq, Eq)]
pub struct Slip {
    code: u32,
    rows_known: u32,
    pub verdict: Answer,
}

impl Slip {
    /// The row count, where the slip says it.
    pub fn rows(&self) -> Option<u32> {
        (self.rows_known != 0).then_some(self.verdict.rows)
    }
}

/// `xa_part` of the header: where a file's data set starts, or code 15 to 17 and 0.
#[repr(C)]
#[derive(Clone, Copy, Debug, Default, PartialEq, Eq)]
pub struct Part {
    code: u32,
    pub start: usize,
}

/// `xa_rewritten` of the header: fields that the code does not name are 0.
#[repr(C)]
#[derive(Clone, Copy, Debug, Default, PartialEq, Eq)]
pub struct Rewritten {
    code: u32,
    pub offset: u32,
    pub rows: u32,
    pub length: u32,
}

/// `xa_compared` of the header.
#[repr(C)]
#[derive(Clone, Copy, Debug, Default, PartialEq, Eq)]
pub struct Compared {
    pub answer: Answer,
    pub same: u32,
    pub first: u32,
    pub count: u32,
}

macro_rules! coded {
    ($($answer:ty),+) => {
        $(impl Coded for $answer {
            fn number(&self) -> u32 {
                self.code
            }
        })+
    };
}

coded!(Answer, Slip, Part, Rewritten);

impl Coded for Compared {
    fn number(&self) -> u32 {
        self.answer.code
    }
}

/// The same code and offset as an answer.
impl From<Rewritten> for Answer {
    fn from(refused: Rewritten) -> Answer {
        Answer { code: refused.code, offset: refused.offset, ..Answer::default() }
    }
}

/// The stack of a thread that makes calls. The header says that no call needs more than 1,070,000 bytes.
pub const STACK: usize = 2 << 20;

/// The bytes of a slip.
pub const SLIP_SIZE: usize = 17;

/// `XA_ROW_NUMBERS` of the header.
pub const ROW_WIDTH: usize = 7;

/// `XA_SHEET_NUMBERS` of the header.
pub const SHEET_NUMBERS: usize = 260;

extern "C" {
    fn xa_count(data: *const u8, size: usize) -> Answer;
    fn xa_read(data: *const u8, size: usize, rows: *mut u32, rows_len: usize) -> Answer;
    fn xa_judge(data: *const u8, size: usize, rows: *mut u32, rows_len: usize) -> Answer;
    fn xa_show(
        data: *const u8,
        size: usize,
        frame: u64,
        rows: *mut u32,
        rows_len: usize,
        image: *mut u8,
        image_len: usize,
    ) -> Answer;
    fn xa_data_set(file: *const u8, size: usize) -> Part;
    fn xa_read_file(file: *const u8, size: usize, rows: *mut u32, rows_len: usize) -> Answer;
    fn xa_judge_file(file: *const u8, size: usize, rows: *mut u32, rows_len: usize) -> Answer;
    fn xa_show_file(
        file: *const u8,
        size: usize,
        frame: u64,
        rows: *mut u32,
        rows_len: usize,
        image: *mut u8,
        image_len: usize,
    ) -> Answer;
    fn xa_canonical(
        data: *const u8,
        size: usize,
        rows: *mut u32,
        rows_len: usize,
        target: *mut u8,
        target_len: usize,
    ) -> Rewritten;
    fn xa_linear(
        data: *const u8,
        size: usize,
        frame: u64,
        rows: *mut u32,
        rows_len: usize,
        values: *mut u16,
        values_len: usize,
    ) -> Answer;
    fn xa_sheet(
        data: *const u8,
        size: usize,
        first: u64,
        last: u64,
        rows: *mut u32,
        rows_len: usize,
        sheet: *mut u64,
        sheet_len: usize,
    ) -> Answer;
    fn xa_compare(
        data: *const u8,
        size: usize,
        frame: u64,
        cells: *const u8,
        cells_len: usize,
        tolerance: u64,
        rows: *mut u32,
        rows_len: usize,
    ) -> Compared;
    fn xa_write_slip(verdict: Answer, rows_known: u32, slip: *mut u8, slip_len: usize) -> u32;
    fn xa_read_slip(slip: *const u8, slip_len: usize) -> Slip;
}

/// The rows of a data set.
pub fn read(data: &[u8], rows: &mut [u32]) -> Answer {
    // Sound: pointer and length of each buffer are those of one slice; the call writes within `rows` alone and keeps
    // no pointer.
    unsafe { xa_read(data.as_ptr(), data.len(), rows.as_mut_ptr(), rows.len()) }
}

/// How many rows a data set has; 0 if it does not read.
pub fn count(data: &[u8]) -> usize {
    // Sound: the call reads within `data` alone and writes nothing.
    let answer = unsafe { xa_count(data.as_ptr(), data.len()) };
    answer.rows as usize
}

/// The verdict on a data set, and its rows.
pub fn judge(data: &[u8], rows: &mut [u32]) -> Answer {
    // Sound: as in `read`.
    unsafe { xa_judge(data.as_ptr(), data.len(), rows.as_mut_ptr(), rows.len()) }
}

/// Draws a frame of an accepted data set.
pub fn show(data: &[u8], frame: u64, rows: &mut [u32], image: &mut [u8]) -> Answer {
    // Sound: as in `read`; two mutable slices never overlap, and the call writes within these two alone.
    unsafe { xa_show(data.as_ptr(), data.len(), frame, rows.as_mut_ptr(), rows.len(), image.as_mut_ptr(), image.len()) }
}

/// Where a file's data set starts.
pub fn data_set(file: &[u8]) -> Part {
    // Sound: the call reads within `file` alone and writes nothing.
    unsafe { xa_data_set(file.as_ptr(), file.len()) }
}

/// The rows of a file's data set.
pub fn read_file(file: &[u8], rows: &mut [u32]) -> Answer {
    // Sound: as in `read`.
    unsafe { xa_read_file(file.as_ptr(), file.len(), rows.as_mut_ptr(), rows.len()) }
}

/// The verdict on a file's data set, and its rows.
pub fn judge_file(file: &[u8], rows: &mut [u32]) -> Answer {
    // Sound: as in `read`.
    unsafe { xa_judge_file(file.as_ptr(), file.len(), rows.as_mut_ptr(), rows.len()) }
}

/// Draws a frame of an accepted file.
pub fn show_file(file: &[u8], frame: u64, rows: &mut [u32], image: &mut [u8]) -> Answer {
    // Sound: as in `show`.
    unsafe {
        xa_show_file(file.as_ptr(), file.len(), frame, rows.as_mut_ptr(), rows.len(), image.as_mut_ptr(), image.len())
    }
}

/// Writes the canonical form of a data set.
pub fn canonical(data: &[u8], rows: &mut [u32], target: &mut [u8]) -> Rewritten {
    // Sound: as in `show`.
    unsafe { xa_canonical(data.as_ptr(), data.len(), rows.as_mut_ptr(), rows.len(), target.as_mut_ptr(), target.len()) }
}

/// Maps a frame of an accepted data set back to beam intensity.
pub fn linear(data: &[u8], frame: u64, rows: &mut [u32], values: &mut [u16]) -> Answer {
    // Sound: as in `show`.
    unsafe {
        xa_linear(data.as_ptr(), data.len(), frame, rows.as_mut_ptr(), rows.len(), values.as_mut_ptr(), values.len())
    }
}

/// Counts the grey levels of frames of an accepted data set.
pub fn sheet(data: &[u8], first: u64, last: u64, rows: &mut [u32], sheet: &mut [u64]) -> Answer {
    // Sound: as in `show`.
    unsafe {
        xa_sheet(data.as_ptr(), data.len(), first, last, rows.as_mut_ptr(), rows.len(), sheet.as_mut_ptr(), sheet.len())
    }
}

/// Compares another workstation's picture with a frame of an accepted data set.
pub fn compare(data: &[u8], frame: u64, cells: &[u8], tolerance: u64, rows: &mut [u32]) -> Compared {
    // Sound: as in `read`; the cells are only read.
    unsafe {
        xa_compare(
            data.as_ptr(),
            data.len(),
            frame,
            cells.as_ptr(),
            cells.len(),
            tolerance,
            rows.as_mut_ptr(),
            rows.len(),
        )
    }
}

/// Writes the slip of a verdict whose row count is known; answers the code.
pub fn write_slip(verdict: Answer, slip: &mut [u8]) -> Code {
    // Sound: the verdict goes by value, and the call writes within `slip` alone.
    Code::of(unsafe { xa_write_slip(verdict, 1, slip.as_mut_ptr(), slip.len()) })
}

/// The verdict that a slip records.
pub fn read_slip(slip: &[u8]) -> Slip {
    // Sound: the call reads within `slip` alone and writes nothing.
    unsafe { xa_read_slip(slip.as_ptr(), slip.len()) }
}

/// Zeroed memory that bypasses the allocator: it goes back to the system as soon as it is dropped, and pages that nobody writes to
/// take none.
#[derive(Default)]
pub struct Memory(Option<memmap2::MmapMut>);

impl Memory {
    /// `size` bytes, if there is memory for them.
    pub fn of(size: usize) -> io::Result<Memory> {
        if size == 0 {
            return Ok(Memory(None));
        }
        Ok(Memory(Some(memmap2::MmapMut::map_anon(size)?)))
    }

    pub fn bytes(&self) -> &[u8] {
        self.0.as_deref().unwrap_or(&[])
    }

    pub fn bytes_mut(&mut self) -> &mut [u8] {
        self.0.as_deref_mut().unwrap_or(&mut [])
    }

    /// The same bytes as numbers.
    pub fn numbers(&self) -> &[u32] {
        // Sound: any four bytes are a number. Pages start at multiples of four, so no byte is skipped in front.
        unsafe { self.bytes().align_to().1 }
    }

    pub fn numbers_mut(&mut self) -> &mut [u32] {
        // Sound: as above.
        unsafe { self.bytes_mut().align_to_mut().1 }
    }
}

/// A lease on a file (fcntl(2), F_SETLEASE). While it is held nobody has the file open for writing or mapped to write; whoever opens it for
/// writing waits until the lease is given back, but no longer than /proc/sys/fs/lease-break-time says.
pub struct Lease<'a>(&'a File);

/// Numbers of Linux that the crate libc lacks; they are the same on every machine that Debian runs on.
const SET_SIGNAL: libc::c_int = 10;
const SET_LEASE: libc::c_int = 1024;
const GET_LEASE: libc::c_int = 1025;

fn control(file: &File, what: libc::c_int, value: libc::c_int) -> io::Result<libc::c_int> {
    // Sound: the file stays open while it is borrowed, and these commands take a number and follow no pointer.
    match unsafe { libc::fcntl(file.as_raw_fd(), what, value) } {
        -1 => Err(io::Error::last_os_error()),
        answer => Ok(answer),
    }
}

impl Lease<'_> {
    /// Takes the lease. The error is `WouldBlock` if somebody has the file open for writing, and another if we cannot have leases.
    pub fn take(file: &File) -> io::Result<Lease<'_>> {
        // A signal says that somebody wants to write. The usual one would end the process; this one does nothing.
        control(file, SET_SIGNAL, libc::SIGURG)?;
        control(file, SET_LEASE, libc::F_RDLCK as libc::c_int)?;
        Ok(Lease(file))
    }

    /// Whether nobody has asked to write since it was taken.
    pub fn holds(&self) -> bool {
        control(self.0, GET_LEASE, 0).ok() == Some(libc::F_RDLCK as libc::c_int)
    }
}

impl Drop for Lease<'_> {
    fn drop(&mut self) {
        // A lease that was broken is gone already.
        let _ = control(self.0, SET_LEASE, libc::F_UNLCK as libc::c_int);
    }
}

/// The bytes of a file, not copied.
pub struct Mapping(Option<memmap2::Mmap>);

impl Mapping {
    /// Maps a regular file. An empty file cannot be mapped, and needs no mapping.
    pub fn of(file: &File) -> io::Result<Mapping> {
        if file.metadata()?.len() == 0 {
            return Ok(Mapping(None));
        }
        // Sound as long as nobody else changes the file while it is mapped. That cannot be enforced here: a file is mapped
        // only with --map, whose help asks it of the user. Otherwise it is read into memory of our own (`files::Opened`).
        let map = unsafe { memmap2::Mmap::map(file)? };
        Ok(Mapping(Some(map)))
    }

    pub fn bytes(&self) -> &[u8] {
        match &self.0 {
            Some(map) => map,
            None => &[],
        }
    }
}
