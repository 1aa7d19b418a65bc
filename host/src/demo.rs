//! `luux demo`: makes sample runs, judges them and draws one.
//!
//! A run shows bones and a tree of vessels that fills with contrast while the patient moves a little. Its mask is the average of the
//! first two frames, and each frame has its own window and its own shift of the mask, in quarters of a pixel.

use std::fs;
use std::io::{self, Write};
use std::path::{Path, PathBuf};

use crate::files;
use crate::finding::Inputs;
use crate::frames;
use crate::head::Form;
use crate::judging;
use crate::names::tags::*;
use crate::output::{line, note_of, note_unwritten, Status};
use crate::picture;

const FRAMES: usize = 24;
const SIDE: usize = 256;
/// The first frames have no contrast; they are the mask.
const MASKS: usize = 2;
/// The frame whose item one of the runs lacks, and the frame whose window another lacks.
const LEFT_OUT: usize = 13;
const WINDOWLESS: usize = 17;

// ---------------------------------------------------------------------------------------------------------------------
// Explicit VR Little Endian

/// An element, with the long header if its VR has one. A value of odd length is padded.
fn element(tag: u32, vr: &str, value: &[u8]) -> Vec<u8> {
    let mut value = value.to_vec();
    if value.len() % 2 == 1 {
        value.push(if vr == "UI" { 0 } else { b' ' });
    }
    let mut bytes = tag_bytes(tag);
    bytes.extend(vr.as_bytes());
    if matches!(vr, "SQ" | "OB" | "OW") {
        bytes.extend([0, 0]);
        bytes.extend((value.len() as u32).to_le_bytes());
    } else {
        bytes.extend((value.len() as u16).to_le_bytes());
    }
    bytes.extend(value);
    bytes
}

fn tag_bytes(tag: u32) -> Vec<u8> {
    let mut bytes = ((tag >> 16) as u16).to_le_bytes().to_vec();
    bytes.extend((tag as u16).to_le_bytes());
    bytes
}

fn text(tag: u32, vr: &str, value: &str) -> Vec<u8> {
    element(tag, vr, value.as_bytes())
}

fn us(tag: u32, values: &[u16]) -> Vec<u8> {
    element(tag, "US", &values.iter().flat_map(|value| value.to_le_bytes()).collect::<Vec<u8>>())
}

fn item(elements: &[Vec<u8>]) -> Vec<u8> {
    let content = elements.concat();
    let mut bytes = tag_bytes(ITEM);
    bytes.extend((content.len() as u32).to_le_bytes());
    bytes.extend(content);
    bytes
}

fn sequence(tag: u32, items: &[Vec<u8>]) -> Vec<u8> {
    element(tag, "SQ", &items.concat())
}

// ---------------------------------------------------------------------------------------------------------------------
// The run

/// How far the patient has moved in a frame, down and to the right: whole quarters of a pixel.
fn moved(frame: usize) -> (f32, f32) {
    match frame {
        1..=9 => (0.0, 0.0),
        10..=15 => (2.25, -1.5),
        _ => (3.5, -2.75),
    }
}

/// The functional groups of a frame.
fn frame_item(frame: usize, with_window: bool) -> Vec<u8> {
    let mut groups = vec![sequence(
        FRAME_CONTENT_SEQUENCE,
        &[item(&[text(
            FRAME_ACQUISITION_DATETIME,
            "DT",
            &format!("202403050500{:02}.{:03}", frame / 4, frame % 4 * 250),
        )])],
    )];
    // Mask frames are drawn as they are, the others as differences from the mask. One number has an exponent, as DS allows.
    let (center, width) = if frame <= MASKS { ("2.048E3", "2400") } else { ("1931", "800") };
    let mut window = vec![text(WINDOW_CENTER, "DS", center)];
    if with_window {
        window.push(text(WINDOW_WIDTH, "DS", width));
    }
    groups.push(sequence(FRAME_VOI_LUT_SEQUENCE, &[item(&window)]));
    let (down, right) = moved(frame);
    let shift: Vec<u8> = [down, right].iter().flat_map(|by| by.to_le_bytes()).collect();
    groups.push(sequence(
        FRAME_PIXEL_SHIFT_SEQUENCE,
        &[item(&[element(MASK_SUB_PIXEL_SHIFT, "FL", &shift), us(SUBTRACTION_ITEM_ID, &[1])])],
    ));
    item(&groups)
}

const ENHANCED_XA: &str = "1.2.840.10008.5.1.4.1.1.12.1.1";
/// UIDs made from random numbers (PS3.5, annex B.2).
const INSTANCE: &str = "2.25.208136041254977261925360311254630151267";
const STUDY: &str = "2.25.114508917733560224871340569928430777519";

/// A file: 128 bytes, the mark, the head with its length first, the data set.
fn file(data_set: &[u8]) -> Vec<u8> {
    let head = [
        element(FILE_META_INFORMATION_VERSION, "OB", &[0, 1]),
        text(MEDIA_STORAGE_SOP_CLASS_UID, "UI", ENHANCED_XA),
        text(MEDIA_STORAGE_SOP_INSTANCE_UID, "UI", INSTANCE),
        text(TRANSFER_SYNTAX_UID, "UI", "1.2.840.10008.1.2.1"), // Explicit VR Little Endian
        text(IMPLEMENTATION_CLASS_UID, "UI", "2.25.83027144017286054"),
    ]
    .concat();
    [
        &[0; 128],
        &b"DICM"[..],
        &element(FILE_META_INFORMATION_GROUP_LENGTH, "UL", &(head.len() as u32).to_le_bytes()),
        &head,
        data_set,
    ]
    .concat()
}

/// A data set around pixel bytes. Frame `left_out` has no item, frame `windowless` no Window Width.
fn data_set(pixels: &[u8], left_out: Option<usize>, windowless: Option<usize>) -> Vec<u8> {
    let frames = (1..=FRAMES).filter(|&frame| Some(frame) != left_out);
    let items: Vec<Vec<u8>> = frames.map(|frame| frame_item(frame, Some(frame) != windowless)).collect();
    let masks: Vec<u16> = (1..=MASKS as u16).collect();
    [
        text(IMAGE_TYPE, "CS", "ORIGINAL\\PRIMARY\\\\NONE"),
        text(SOP_CLASS_UID, "UI", ENHANCED_XA),
        text(SOP_INSTANCE_UID, "UI", INSTANCE),
        text(ACQUISITION_DATETIME, "DT", "20240305050000"),
        text(MODALITY, "CS", "XA"),
        text(INSTITUTION_NAME, "LO", "Sample Clinic"),
        text(STATION_NAME, "SH", "XA-1"),
        text(PATIENT_NAME, "PN", "Sample^Run"),
        text(KVP, "DS", "72"),
        text(RADIATION_SETTING, "CS", "GR"),
        text(RADIATION_MODE, "CS", "PULSED"),
        text(CONTENT_QUALIFICATION, "CS", "PRODUCT"),
        element(EXPOSURE_IN_MAS, "FD", &67.2f64.to_le_bytes()),
        text(PLANES_IN_ACQUISITION, "CS", "SINGLE PLANE"),
        text(PLANE_IDENTIFICATION, "CS", "MONOPLANE"),
        text(STUDY_INSTANCE_UID, "UI", STUDY),
        us(SAMPLES_PER_PIXEL, &[1]),
        text(PHOTOMETRIC_INTERPRETATION, "CS", "MONOCHROME2"),
        text(NUMBER_OF_FRAMES, "IS", &FRAMES.to_string()),
        us(ROWS, &[SIDE as u16]),
        us(COLUMNS, &[SIDE as u16]),
        us(BITS_ALLOCATED, &[16]),
        us(BITS_STORED, &[12]),
        us(HIGH_BIT, &[11]),
        us(PIXEL_REPRESENTATION, &[0]),
        text(BURNED_IN_ANNOTATION, "CS", "NO"),
        text(LOSSY_IMAGE_COMPRESSION, "CS", "00"),
        sequence(
            MASK_SUBTRACTION_SEQUENCE,
            &[item(&[
                text(MASK_OPERATION, "CS", "AVG_SUB"),
                us(APPLICABLE_FRAME_RANGE, &[MASKS as u16 + 1, FRAMES as u16]),
                us(MASK_FRAME_NUMBERS, &masks),
                us(SUBTRACTION_ITEM_ID, &[1]),
            ])],
        ),
        text(PRESENTATION_LUT_SHAPE, "CS", "IDENTITY"),
        sequence(SHARED_FUNCTIONAL_GROUPS_SEQUENCE, &[item(&[])]),
        sequence(PER_FRAME_FUNCTIONAL_GROUPS_SEQUENCE, &items),
        element(PIXEL_DATA, "OW", pixels),
    ]
    .concat()
}

// ---------------------------------------------------------------------------------------------------------------------
// The pixels

/// A simple random number generator with a fixed seed.
struct Noise(u64);

impl Noise {
    fn next(&mut self) -> f64 {
        self.0 = self.0.wrapping_mul(6_364_136_223_846_793_005).wrapping_add(1_442_695_040_888_963_407);
        (self.0 >> 40) as f64 / (1u64 << 24) as f64
    }
}

/// A bump of height 1 around 0 that reaches as far as `wide`.
fn bump(from: f64, wide: f64) -> f64 {
    let part = (from / wide).abs();
    if part < 1.0 {
        (1.0 - part * part).sqrt()
    } else {
        0.0
    }
}

/// Soft tissue with a spine and ribs; bone absorbs more and is darker.
fn bones(x: f64, y: f64) -> f64 {
    let spine = bump(x - 70.0 - 6.0 * (y / 60.0).sin(), 24.0) * (0.8 + 0.2 * (y / 7.5).sin());
    let rib = bump((y + (x - 70.0).abs() * 0.35 + 400.0) % 48.0 - 24.0, 8.0) * bump(x - 128.0, 160.0);
    let tissue = 3000.0 - 500.0 * bump(x - 150.0, 150.0) - 300.0 * bump(y - 150.0, 170.0);
    tissue - 800.0 * spine - 450.0 * rib
}

/// The contrast in each cell: the most there can be, and the frame at which it arrives.
struct Vessels {
    depth: Vec<f64>,
    arrival: Vec<f64>,
}

impl Vessels {
    /// A tree that grows from the left edge and forks.
    fn grown() -> Vessels {
        let mut vessels = Vessels { depth: vec![0.0; SIDE * SIDE], arrival: vec![0.0; SIDE * SIDE] };
        let mut noise = Noise(83);
        vessels.branch(&mut noise, (-6.0, 140.0), -0.1, 6.5, MASKS as f64 + 1.0, 6);
        vessels
    }

    fn branch(&mut self, noise: &mut Noise, from: (f64, f64), angle: f64, radius: f64, time: f64, forks: u32) {
        let (mut x, mut y, mut angle) = (from.0, from.1, angle);
        let steps = 26 + (noise.next() * 30.0) as u32;
        for _ in 0..steps {
            angle += (noise.next() - 0.5) * 0.22;
            x += angle.cos() * 1.4;
            y += angle.sin() * 1.4;
            self.dab(x, y, radius, time + (x - from.0).hypot(y - from.1) / 32.0);
        }
        if forks > 0 {
            let time = time + (x - from.0).hypot(y - from.1) / 32.0;
            let spread = 0.35 + noise.next() * 0.3;
            self.branch(noise, (x, y), angle - spread, radius * 0.78, time, forks - 1);
            self.branch(noise, (x, y), angle + spread, radius * 0.7, time, forks - 1);
        }
    }

    /// A round piece of vessel; where two overlap, the thicker one counts.
    fn dab(&mut self, x: f64, y: f64, radius: f64, time: f64) {
        let (left, top) = ((x - radius).max(0.0) as usize, (y - radius).max(0.0) as usize);
        for row in top..((y + radius).max(0.0) as usize + 2).min(SIDE) {
            for column in left..((x + radius).max(0.0) as usize + 2).min(SIDE) {
                let depth = radius * bump((column as f64 - x).hypot(row as f64 - y), radius.max(0.8));
                let cell = row * SIDE + column;
                if depth > self.depth[cell] {
                    self.depth[cell] = depth;
                    self.arrival[cell] = time;
                }
            }
        }
    }

    /// The contrast of a cell in a frame: it fills within three frames and later fades.
    fn contrast(&self, cell: usize, frame: f64) -> f64 {
        let since = frame - self.arrival[cell];
        let filled = (since / 3.0).clamp(0.0, 1.0) - ((since - 9.0) / 12.0).clamp(0.0, 0.7);
        self.depth[cell] * filled
    }
}

/// The value at a point between four cells, interpolated.
fn between(seen: impl Fn(f64, f64) -> f64, y: f64, x: f64) -> f64 {
    let along = |row: f64| (1.0 - x + x.floor()) * seen(row, x.floor()) + (x - x.floor()) * seen(row, x.floor() + 1.0);
    (1.0 - y + y.floor()) * along(y.floor()) + (y - y.floor()) * along(y.floor() + 1.0)
}

/// All frames, 16 bits a cell.
fn pixels() -> Vec<u8> {
    let vessels = Vessels::grown();
    let mut noise = Noise(1);
    let mut bytes = Vec::with_capacity(FRAMES * SIDE * SIDE * 2);
    for frame in 1..=FRAMES {
        let (down, right) = moved(frame);
        let inside = |place: f64| place.clamp(0.0, SIDE as f64 - 1.0) as usize;
        let seen = |row: f64, column: f64| {
            bones(column, row) - 60.0 * vessels.contrast(inside(row) * SIDE + inside(column), frame as f64)
        };
        for row in 0..SIDE {
            for column in 0..SIDE {
                // This point was at (row - down, column - right) before the patient moved.
                let (y, x) = (row as f64 - f64::from(down), column as f64 - f64::from(right));
                let grain = (noise.next() + noise.next() - 1.0) * 1.5;
                let cell = between(seen, y, x) + grain;
                bytes.extend((cell.clamp(0.0, 4095.0) as u16).to_le_bytes());
            }
        }
    }
    bytes
}

// ---------------------------------------------------------------------------------------------------------------------
// The demonstration

/// A command as a user would type it, above its output.
fn typed(out: &mut dyn Write, words: &[&str], path: &Path) -> io::Result<()> {
    writeln!(out, "\n$ luux {} {}", words.join(" "), files::printed(path))
}

/// The frames that are drawn, and the name of the contact sheet.
const DRAWN: [u64; 4] = [1, 7, 11, 19];
const CONTACT: &str = "contact.png";

fn drawn(folder: &Path, frame: u64) -> PathBuf {
    folder.join(format!("frame-{frame}.png"))
}

/// A file of the folder that the demonstration would replace and did not write: a run that is not the sample of its name, or a picture where
/// there are no samples.
fn in_the_way(folder: &Path, samples: &[(PathBuf, &[u8])]) -> Option<PathBuf> {
    let exists = |path: &Path| fs::symlink_metadata(path).is_ok();
    let sample = |(path, content): &(PathBuf, &[u8])| fs::read(path).is_ok_and(|there| there == *content);
    if let Some((path, _)) = samples.iter().find(|one| exists(&one.0) && !sample(one)) {
        return Some(path.clone());
    }
    let pictures = DRAWN.map(|frame| drawn(folder, frame)).into_iter().chain([folder.join(CONTACT)]);
    let mut pictures = pictures.filter(|_| !samples.iter().any(sample));
    pictures.find(|path| exists(path))
}

pub fn run(folder: &Path, jobs: usize, out: &mut dyn Write) -> io::Result<Status> {
    let pixels = pixels();
    let good = file(&data_set(&pixels, None, None));
    let samples: [(&str, &[u8], &str); 4] = [
        ("cut-short.xa", &good[..good.len() / 2], "the first half of the good run"),
        ("good.xa", &good, "24 frames of 256 x 256, a mask of the first two, moved by quarters of a pixel"),
        ("item-left-out.xa", &file(&data_set(&pixels, Some(LEFT_OUT), None)), "without the per-frame item of frame 13"),
        ("window-lost.xa", &file(&data_set(&pixels, None, Some(WINDOWLESS))), "no Window Width in frame 17"),
    ];
    let runs = folder.join("runs");
    let contents = samples.map(|(name, content, _)| (runs.join(name), content));
    if let Some(path) = in_the_way(folder, &contents) {
        note_of(&path, "cannot be written: it exists, and is not of a demonstration; name another folder");
        return Ok(Status::Failed);
    }
    writeln!(out, "Sample runs:")?;
    for ((path, content), (_, _, about)) in contents.iter().zip(samples) {
        if let Err(error) = files::write_whole(path, content, true) {
            note_unwritten(path, &error);
            return Ok(Status::Failed);
        }
        line(out, path, about)?;
    }

    typed(out, &["judge"], &runs)?;
    let wanted = judging::Wanted::lines(Inputs::all(vec![runs.clone()], Form::File), jobs);
    let mut status = match judging::run(&wanted, out)? {
        // Three of the runs are meant to be refused.
        Status::Refused => Status::Fine,
        _ => Status::Failed,
    };

    let path = runs.join("good.xa");
    for frame in DRAWN {
        let to = drawn(folder, frame);
        typed(out, &["show", &path.to_string_lossy(), &frame.to_string(), "-o"], &to)?;
        let wanted = frames::Wanted { form: Form::File, both: false, format: None, output: Some(&to) };
        status = status.max(frames::show(&path, frames::Frames::One(frame), &wanted, out)?);
    }
    let to = folder.join(CONTACT);
    typed(out, &["contact", &path.to_string_lossy(), "-o"], &to)?;
    status = status.max(picture::contact(&path, Form::File, Some(&to), out)?);
    Ok(status)
}
