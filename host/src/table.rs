//! A table of rows, and how to find things in it.

use crate::library::ROW_WIDTH;
use crate::names::{self, tags};

const SQ: u32 = (b'S' as u32) << 8 | b'Q' as u32;

/// A row, as `luuxidgaan.h` describes it. Rows are numbered from 1; parent 0 is the root.
pub struct Row {
    pub number: u32,
    pub tag: u32,
    pub vr: u32,
    pub depth: u32,
    pub offset: u32,
    pub length: u32,
    pub below: u32,
    pub parent: u32,
}

impl Row {
    pub fn is_item(&self) -> bool {
        self.vr == 0
    }

    /// The two letters, or `--` for an item.
    pub fn vr_text(&self) -> String {
        match self.vr {
            0 => String::from("--"),
            letters => [letters >> 8, letters & 255].iter().map(|&letter| letter as u8 as char).collect(),
        }
    }

    pub fn is_sequence(&self) -> bool {
        self.vr == SQ
    }

    /// The tag as the standard writes it.
    pub fn tag_text(&self) -> String {
        names::tag_text(self.tag)
    }

    /// The number of the last row below it, or its own.
    pub fn last(&self) -> u32 {
        self.number.saturating_add(self.below)
    }
}

/// The numbers of the rows of a data set that was read.
#[derive(Clone, Copy)]
pub struct Table<'a>(pub &'a [u32]);

impl<'a> Table<'a> {
    pub fn count(self) -> u32 {
        (self.0.len() / ROW_WIDTH) as u32
    }

    /// The row of a number.
    pub fn row(self, number: u32) -> Option<Row> {
        let at = (number as usize).checked_sub(1)?.checked_mul(ROW_WIDTH)?;
        match *self.0.get(at..at + ROW_WIDTH)? {
            [tag, vr, depth, offset, length, below, parent] => {
                Some(Row { number, tag, vr, depth, offset, length, below, parent })
            }
            _ => None,
        }
    }

    /// All rows, in the order of the bytes.
    pub fn rows(self) -> impl Iterator<Item = Row> + 'a {
        (1..=self.count()).filter_map(move |number| self.row(number))
    }

    /// The rows directly below a row, or at the root.
    pub fn members(self, holder: u32) -> impl Iterator<Item = Row> + 'a {
        let first = self.row(holder.saturating_add(1)).filter(|row| row.parent == holder);
        std::iter::successors(first, move |row| self.row(row.last() + 1).filter(|row| row.parent == holder))
    }

    /// The element with a tag in an item, or at the root.
    pub fn element(self, holder: u32, tag: u32) -> Option<Row> {
        self.members(holder).take_while(|row| row.tag <= tag).find(|row| row.tag == tag)
    }

    /// The element with a tag at the root.
    pub fn root(self, tag: u32) -> Option<Row> {
        self.element(0, tag)
    }

    /// The items of the sequence with a tag in an item, or at the root.
    pub fn items(self, holder: u32, tag: u32) -> impl Iterator<Item = Row> + 'a {
        self.element(holder, tag).into_iter().flat_map(move |sequence| self.members(sequence.number))
    }

    /// The items of the per-frame functional groups.
    pub fn frame_items(self) -> impl Iterator<Item = Row> + 'a {
        self.items(0, tags::PER_FRAME_FUNCTIONAL_GROUPS_SEQUENCE)
    }

    /// The row of a frame's item; frames are counted from 1.
    pub fn frame_item(self, frame: u32) -> Option<Row> {
        self.frame_items().nth((frame as usize).checked_sub(1)?)
    }
}

#[cfg(test)]
mod tests {
    use super::*;

    const UI: u32 = (b'U' as u32) << 8 | b'I' as u32;

    /// A root element, a sequence of two items with an element each, and a last root element.
    #[rustfmt::skip]
    const ROWS: [u32; 7 * 7] = [
        tags::SOP_CLASS_UID, UI, 0, 8, 2, 0, 0,
        tags::PER_FRAME_FUNCTIONAL_GROUPS_SEQUENCE, SQ, 0, 22, 36, 4, 0,
        tags::ITEM, 0, 1, 30, 10, 1, 2,
        tags::FRAME_CONTENT_SEQUENCE, SQ, 1, 38, 0, 0, 3,
        tags::ITEM, 0, 1, 48, 10, 1, 2,
        tags::FRAME_VOI_LUT_SEQUENCE, SQ, 1, 56, 0, 0, 5,
        tags::PIXEL_DATA, 0x4F57, 0, 70, 0, 0, 0,
    ];

    fn numbers(rows: impl Iterator<Item = Row>) -> Vec<u32> {
        rows.map(|row| row.number).collect()
    }

    #[test]
    fn members() {
        let table = Table(&ROWS);
        assert_eq!((table.count(), numbers(table.rows())), (7, (1..=7).collect()));
        assert_eq!((numbers(table.members(0)), numbers(table.members(2))), (vec![1, 2, 7], vec![3, 5]));
        assert_eq!(
            (numbers(table.members(3)), numbers(table.members(4)), numbers(table.members(7))),
            (vec![4], vec![], vec![])
        );
        assert!(table.row(0).is_none() && table.row(8).is_none() && numbers(table.members(u32::MAX)).is_empty());
        assert!(numbers(Table(&[]).members(0)).is_empty());
    }

    #[test]
    fn elements() {
        let table = Table(&ROWS);
        let number = |row: Option<Row>| row.map(|row| row.number);
        assert_eq!((number(table.root(tags::PIXEL_DATA)), number(table.root(tags::ROWS))), (Some(7), None));
        // An element of an item is none of the root, nor of another item.
        assert_eq!(number(table.root(tags::FRAME_CONTENT_SEQUENCE)), None);
        assert_eq!([3, 5].map(|item| number(table.element(item, tags::FRAME_VOI_LUT_SEQUENCE))), [None, Some(6)]);
        assert_eq!([0, 1, 2, 3].map(|frame| number(table.frame_item(frame))), [None, Some(3), Some(5), None]);
        assert!(numbers(table.items(0, tags::SHARED_FUNCTIONAL_GROUPS_SEQUENCE)).is_empty());
    }

    #[test]
    fn rows_in_print() {
        let row = |number| Table(&ROWS).row(number).unwrap();
        assert_eq!([1, 2, 3].map(|number| row(number).vr_text()), ["UI", "SQ", "--"]);
        assert_eq!(
            [1, 2, 3].map(|number| (row(number).is_sequence(), row(number).is_item())),
            [(false, false), (true, false), (false, true)]
        );
        assert_eq!((row(2).tag_text(), row(2).last(), row(7).last()), (String::from("(5200,9230)"), 6, 7));
    }
}
