//! Pictures: cells as the library drew or mapped them, in PNG or PGM files.

use std::borrow::Cow;
use std::path::Path;

use crate::files;

/// A cell: an 8-bit grey level or a 16-bit number.
pub trait Cell: Copy {
    const DEPTH: png::BitDepth;
    const HIGHEST: u16;

    /// The cells as files store them, the high byte first.
    fn bytes(cells: &[Self]) -> Cow<'_, [u8]>;
}

impl Cell for u8 {
    const DEPTH: png::BitDepth = png::BitDepth::Eight;
    const HIGHEST: u16 = 255;

    fn bytes(cells: &[u8]) -> Cow<'_, [u8]> {
        Cow::Borrowed(cells)
    }
}

impl Cell for u16 {
    const DEPTH: png::BitDepth = png::BitDepth::Sixteen;
    const HIGHEST: u16 = 65_535;

    fn bytes(cells: &[u16]) -> Cow<'_, [u8]> {
        Cow::Owned(cells.iter().flat_map(|cell| cell.to_be_bytes()).collect())
    }
}

/// Cells, row by row.
pub struct Image<C> {
    width: usize,
    height: usize,
    cells: Vec<C>,
}

impl<C: Cell> Image<C> {
    pub fn new(width: usize, height: usize, cell: C) -> Result<Image<C>, String> {
        let mut cells = Vec::new();
        let size = width.saturating_mul(height);
        if cells.try_reserve_exact(size).is_err() {
            return Err(format!("not enough memory for a picture of {width} x {height}"));
        }
        cells.resize(size, cell);
        Ok(Image { width, height, cells })
    }

    pub fn width(&self) -> usize {
        self.width
    }

    pub fn height(&self) -> usize {
        self.height
    }

    pub fn cells(&self) -> &[C] {
        &self.cells
    }

    pub fn cells_mut(&mut self) -> &mut [C] {
        &mut self.cells
    }

    pub fn put(&mut self, x: usize, y: usize, cell: C) {
        if let Some(place) = self.cells.get_mut(y * self.width + x) {
            *place = cell;
        }
    }

    /// Every k-th cell of every k-th row, so that no side is longer than `side`.
    pub fn sampled(&self, side: usize) -> Image<C> {
        let step = step_for(self.width, self.height, side);
        let (width, height) = sampled_size(self.width, self.height, side);
        let rows = self.cells.chunks(self.width.max(1)).step_by(step);
        let cells: Vec<C> = rows.flat_map(|row| row.iter().copied().step_by(step)).collect();
        Image { width, height, cells }
    }

    /// This picture on the left and one of the same height on the right.
    pub fn beside(&self, other: &Image<C>) -> Image<C> {
        let rows = self.cells.chunks(self.width.max(1)).zip(other.cells.chunks(other.width.max(1)));
        let cells = rows.flat_map(|(left, right)| left.iter().chain(right).copied()).collect();
        Image { width: self.width + other.width, height: self.height, cells }
    }

    /// The content of a file in a format.
    pub fn encoded(&self, format: Format) -> Result<Vec<u8>, String> {
        let mut content = Vec::new();
        match format {
            Format::Pgm => {
                content.extend(format!("P5\n{} {}\n{}\n", self.width, self.height, C::HIGHEST).into_bytes());
                content.extend(C::bytes(&self.cells).iter());
            }
            Format::Png => {
                let mut encoder = png::Encoder::new(&mut content, self.width as u32, self.height as u32);
                encoder.set_color(png::ColorType::Grayscale);
                encoder.set_depth(C::DEPTH);
                encoder.set_filter(png::FilterType::NoFilter);
                encoder.set_compression(png::Compression::Default);
                encoder
                    .write_header()
                    .and_then(|mut writer| writer.write_image_data(&C::bytes(&self.cells)))
                    .map_err(|error| format!("cannot be encoded as PNG: {error}"))?;
            }
        }
        Ok(content)
    }
}

/// One in how many cells is taken so that no side is longer than `side`.
fn step_for(width: usize, height: usize, side: usize) -> usize {
    ((width.max(height) + side - 1) / side).max(1)
}

/// Width and height of what is taken.
pub fn sampled_size(width: usize, height: usize, side: usize) -> (usize, usize) {
    let step = step_for(width, height, side);
    ((width + step - 1) / step, (height + step - 1) / step)
}

/// The format of a picture's file.
#[derive(Clone, Copy, Debug, PartialEq, Eq, clap::ValueEnum)]
pub enum Format {
    Png,
    Pgm,
}

/// The format that the ending of a name gives.
pub fn format_of(path: &Path) -> Option<Format> {
    let ending = path.extension()?.to_str()?.to_ascii_lowercase();
    match ending.as_str() {
        "png" => Some(Format::Png),
        "pgm" => Some(Format::Pgm),
        _ => None,
    }
}

/// Whether a picture of this name can be made; asked before anything is drawn.
pub fn is_picture_name(path: &Path) -> bool {
    format_of(path).is_some()
}

/// What is said of any other name.
pub fn wrong_name(path: &Path) -> String {
    format!("{}: the name of a picture must end in .png or .pgm", files::printed(path))
}

#[cfg(test)]
mod tests {
    use super::*;

    #[test]
    fn pictures_are_sampled_and_stand_beside_each_other() {
        let image = Image { width: 3, height: 2, cells: vec![1u8, 2, 3, 4, 5, 6] };
        assert_eq!(image.sampled(2).cells, [1, 3]);
        assert_eq!(image.sampled(3).cells, image.cells);
        assert_eq!(image.beside(&image).cells, [1, 2, 3, 1, 2, 3, 4, 5, 6, 4, 5, 6]);
        assert_eq!(image.encoded(Format::Pgm).unwrap(), b"P5\n3 2\n255\n\x01\x02\x03\x04\x05\x06");
    }

    #[test]
    fn formats_go_by_the_name() {
        assert!(
            format_of(Path::new("a.PNG")) == Some(Format::Png) && format_of(Path::new("a.pgm")) == Some(Format::Pgm)
        );
        assert!(format_of(Path::new("png")).is_none() && !is_picture_name(Path::new("a.jpg")));
    }
}
