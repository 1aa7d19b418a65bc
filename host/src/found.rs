//! What a refusal found: the values, counts and lengths where the rule looks, or the header at which reading stopped. They are read from the
//! rows and bytes by tag and item; the library says which rule is broken, and at which frame.

use serde::{Deserialize, Serialize};
use serde_json::{json, Value as Json};

use crate::codes::{Code, Coded};
use crate::head::has_long_header;
use crate::library::Answer;
use crate::looks::{Look, Place, LOOKS};
use crate::names::{called, tag_text, tags};
use crate::table::{Row, Table};
use crate::values::{counted, Source};

/// The most characters of a value, items of a sequence, and findings, that are printed.
const MOST: usize = 400;
const MOST_ITEMS: usize = 64;
const MOST_FINDINGS: usize = 100;

/// One thing that was found, or is absent.
#[derive(Serialize, Deserialize)]
pub struct Finding {
    /// Its tag; 0 if it has none.
    pub tag: u32,
    /// Its row; 0 if it has none.
    pub row: u32,
    pub text: String,
}

impl Finding {
    fn of(tag: u32, row: Option<&Row>, text: String) -> Finding {
        Finding { tag, row: row.map_or(0, |row| row.number), text }
    }

    fn plain(text: String) -> Finding {
        Finding { tag: 0, row: 0, text }
    }

    pub fn json(&self) -> Json {
        match self.tag {
            0 => json!({ "text": self.text }),
            tag => json!({ "tag": tag_text(tag), "row": self.row, "text": self.text }),
        }
    }
}

/// All findings on one line.
pub fn line(found: &[Finding]) -> String {
    found.iter().map(|finding| finding.text.as_str()).collect::<Vec<_>>().join("; ")
}

/// An item in which elements are looked for: its row and what it is called; for the root 0 and nothing.
#[derive(Clone)]
struct Holder {
    row: u32,
    called: String,
}

impl Holder {
    /// What it is called, after a word; nothing for the root.
    fn after(&self, word: &str) -> String {
        match self.called.as_str() {
            "" => String::new(),
            called => format!(" {word} {called}"),
        }
    }
}

/// The data set, the frame, and what was found so far.
struct Search<'a> {
    source: Source<'a>,
    frame: u32,
    found: Vec<Finding>,
}

impl<'a> Search<'a> {
    fn root(&self) -> Holder {
        Holder { row: 0, called: String::new() }
    }

    fn shared(&self) -> Option<Holder> {
        let item = self.source.table.items(0, tags::SHARED_FUNCTIONAL_GROUPS_SEQUENCE).next()?;
        Some(Holder { row: item.number, called: String::from("the shared item") })
    }

    fn own(&self, frame: u32) -> Option<Holder> {
        let item = self.source.table.frame_item(frame)?;
        Some(Holder { row: item.number, called: format!("frame {frame}") })
    }

    /// The holder of a place, and the element of a tag in it.
    fn at(&self, place: Place, here: &Holder, tag: u32) -> Option<(Holder, Option<Row>)> {
        let table = self.source.table;
        let holder = match place {
            Place::Root => self.root(),
            Place::Here => here.clone(),
            Place::Shared => self.shared()?,
            Place::Own => self.own(self.frame)?,
            Place::Group => {
                let own = self.own(self.frame).filter(|holder| table.element(holder.row, tag).is_some());
                let shared = || self.shared().filter(|holder| table.element(holder.row, tag).is_some());
                let none = Holder { row: u32::MAX, called: format!("frame {} and the shared item", self.frame) };
                own.or_else(shared).unwrap_or(none)
            }
        };
        let row = table.element(holder.row, tag);
        Some((holder, row))
    }

    fn add(&mut self, finding: Finding) {
        if self.found.len() < MOST_FINDINGS {
            self.found.push(finding);
        }
    }

    fn look(&mut self, look: &Look, here: &Holder) {
        match *look {
            Look::Value(place, tag) => self.element(place, here, tag, false, Source::told),
            Look::Given(place, tag) => self.element(place, here, tag, true, Source::told),
            Look::Items(place, tag) => self.element(place, here, tag, false, Source::told_items),
            Look::Bytes(place, tag) => self.element(place, here, tag, false, Source::told_bytes),
            Look::Count(tag, what) => {
                self.element(Place::Root, here, tag, false, |source, row| source.told_count(row, what))
            }
            Look::Each(place, tag, looks) => self.each(place, here, tag, looks),
            Look::Both => self.both(),
            Look::First(tag) => self.first(tag),
            Look::Product(factors) => self.product(factors),
        }
    }

    /// An element, as `tell` prints it, or that it is absent.
    fn element(
        &mut self,
        place: Place,
        here: &Holder,
        tag: u32,
        given: bool,
        tell: impl Fn(&Source<'a>, &Row) -> String,
    ) {
        let Some((holder, row)) = self.at(place, here, tag) else {
            return;
        };
        let text = match &row {
            Some(row) => format!("{}{}", tell(&self.source, row), holder.after("in")),
            None if given => return,
            None => format!("{} absent{}", called(tag), holder.after("from")),
        };
        self.add(Finding::of(tag, row.as_ref(), text));
    }

    fn each(&mut self, place: Place, here: &Holder, tag: u32, looks: &[Look]) {
        let Some((holder, Some(sequence))) = self.at(place, here, tag) else {
            return;
        };
        let items = self.source.table.members(sequence.number);
        for (place, item) in items.take(MOST_ITEMS).enumerate() {
            let called = format!("item {} of {}{}", place + 1, tag_text(tag), holder.after("of"));
            for look in looks {
                self.look(look, &Holder { row: item.number, called: called.clone() });
            }
        }
    }

    fn both(&mut self) {
        let table = self.source.table;
        let (Some(shared), Some(own)) = (self.shared(), self.own(self.frame)) else {
            return;
        };
        for row in table.members(own.row).filter(Row::is_sequence) {
            if table.element(shared.row, row.tag).map_or(false, |other| other.is_sequence()) {
                let text = format!("{}{}{}", called(row.tag), shared.after("in"), own.after("and in"));
                self.add(Finding::of(row.tag, Some(&row), text));
            }
        }
    }

    fn first(&mut self, tag: u32) {
        let table = self.source.table;
        let shared = self.shared().and_then(|holder| table.element(holder.row, tag).map(|row| (row, holder)));
        let own = || {
            let had = |(place, item): (usize, Row)| table.element(item.number, tag).map(|row| (row, place as u32 + 1));
            let (row, frame) = table.frame_items().enumerate().find_map(had)?;
            Some((row, self.own(frame)?))
        };
        if let Some((row, holder)) = shared.or_else(own) {
            self.add(Finding::of(tag, Some(&row), format!("{}{}", called(tag), holder.after("in"))));
        }
    }

    fn product(&mut self, factors: &[(u32, &str)]) {
        let mut texts = Vec::new();
        let mut bits: u128 = 1;
        for (tag, what) in factors {
            let number = self.source.table.root(*tag).and_then(|row| self.source.number(&row));
            let Some(number) = number else {
                return;
            };
            bits = bits.saturating_mul(u128::from(number));
            texts.push(counted(number as usize, what));
        }
        self.add(Finding::plain(format!("{} are {} bytes", texts.join(" x "), bits / 8)));
    }
}

impl Source<'_> {
    fn told(&self, row: &Row) -> String {
        format!("{} {} {}", called(row.tag), row.vr_text(), self.value(row, MOST))
    }

    fn told_items(&self, row: &Row) -> String {
        match row.is_sequence() {
            true => format!("{} in {}", self.value(row, MOST), called(row.tag)),
            false => self.told(row),
        }
    }

    fn told_bytes(&self, row: &Row) -> String {
        format!("{} in {} {}", counted(row.length as usize, "byte"), called(row.tag), row.vr_text())
    }

    fn told_count(&self, row: &Row, what: &str) -> String {
        match self.number(row) {
            Some(number) => format!("{} by {}", counted(number as usize, what), called(row.tag)),
            None => self.told(row),
        }
    }

    /// A value that is one number, as text or in two bytes.
    fn number(&self, row: &Row) -> Option<u64> {
        self.value(row, MOST).trim_matches('"').trim().parse().ok()
    }
}

/// What broke a rule.
pub fn by_rule(source: Source, answer: &Answer) -> Vec<Finding> {
    let looks = (answer.rule as usize).checked_sub(1).and_then(|place| LOOKS.get(place)).copied().unwrap_or_default();
    let mut search = Search { source, frame: answer.frame, found: Vec::new() };
    let root = search.root();
    for look in looks {
        search.look(look, &root);
    }
    search.found
}

fn hexadecimal(bytes: &[u8]) -> String {
    bytes.iter().map(|byte| format!("{byte:02X}")).collect::<Vec<_>>().join(" ")
}

/// The two letters of a VR, or two bytes that are no letters.
fn letters(bytes: &[u8]) -> String {
    match bytes.iter().all(u8::is_ascii_alphanumeric) {
        true => format!("\"{}\"", String::from_utf8_lossy(bytes)),
        false => hexadecimal(bytes),
    }
}

fn length_text(length: u32) -> String {
    match length {
        u32::MAX => String::from("undefined length"),
        length => format!("length {length}"),
    }
}

/// A header, as far as its bytes go. Items and delimiters have no VR; the size of a length depends on the VR.
fn header(bytes: &[u8]) -> Finding {
    let Some(&[a, b, c, d, e, f, g, h]) = bytes.get(..8) else {
        return Finding::plain(match bytes {
            [] => String::from("no bytes left"),
            few => format!("{} left: {}", counted(few.len(), "byte"), hexadecimal(few)),
        });
    };
    let tag = u32::from_le_bytes([c, d, a, b]);
    let (vr, long) = ([e, f], u32::from_le_bytes([e, f, g, h]));
    let (text, size) = match (tag >> 16, bytes.get(8..12)) {
        (0xFFFE, _) => (format!("{}, {}", called(tag), length_text(long)), 8),
        (_, Some(&[i, j, k, l])) if has_long_header(vr) => {
            let reserved =
                if [g, h] == [0, 0] { String::new() } else { format!(", reserved bytes {}", hexadecimal(&[g, h])) };
            (
                format!(
                    "{}, VR {}{reserved}, {}",
                    called(tag),
                    letters(&vr),
                    length_text(u32::from_le_bytes([i, j, k, l]))
                ),
                12,
            )
        }
        (_, None) if has_long_header(vr) => (format!("{}, VR {}, no length", called(tag), letters(&vr)), bytes.len()),
        _ => (format!("{}, VR {}, length {}", called(tag), letters(&vr), u16::from_le_bytes([g, h])), 8),
    };
    let after = counted(bytes.len() - size.min(bytes.len()), "byte");
    Finding { tag, row: 0, text: format!("{text}, followed by {after}") }
}

/// The header at which reading stopped, and the element of the root before it, if that is known.
pub fn by_code(data: &[u8], answer: &Answer, before: Table) -> Vec<Finding> {
    match answer.code() {
        code if code.is_of_a_header() => {
            let mut found = vec![header(data.get(answer.offset as usize..).unwrap_or_default())];
            if let Some(last) = before.members(0).last() {
                found.push(Finding::of(
                    last.tag,
                    Some(&last),
                    format!("the element before it is {}", called(last.tag)),
                ));
            }
            found
        }
        Code::TooLarge => vec![Finding::plain(counted(data.len(), "byte"))],
        _ => Vec::new(),
    }
}

/// What was found in a file's head that is refused. The elements of a head read as a data set of their own.
pub fn by_head(file: &[u8], answer: &Answer, head: &Source, data: &Source) -> Vec<Finding> {
    match (answer.code(), file.get(128..132)) {
        (Code::NotAFile, Some(mark)) => vec![Finding::plain(format!("bytes 128 to 131 are {}", hexadecimal(mark)))],
        (Code::NotAFile, None) => vec![Finding::plain(format!("the file has {}", counted(file.len(), "byte")))],
        (Code::BadHead, _) => vec![header(file.get(132..).unwrap_or_default())],
        (Code::OtherSopClass, _) => {
            let mut found = Vec::new();
            for (source, tag) in [(head, tags::MEDIA_STORAGE_SOP_CLASS_UID), (data, tags::SOP_CLASS_UID)] {
                let row = source.table.root(tag);
                let text = row.as_ref().map_or_else(|| format!("{} absent", called(tag)), |row| source.told(row));
                found.push(Finding { tag, row: 0, text });
            }
            found
        }
        _ => Vec::new(),
    }
}

#[cfg(test)]
mod tests {
    use super::*;

    #[test]
    fn headers() {
        let text = |bytes: &[u8]| header(bytes).text;
        assert_eq!(text(b""), "no bytes left");
        assert_eq!(text(b"\x28\0\x10\0US\x02"), "7 bytes left: 28 00 10 00 55 53 02");
        assert_eq!(text(b"\x28\0\x10\0US\x02\0ab"), "Rows (0028,0010), VR \"US\", length 2, followed by 2 bytes");
        assert_eq!(
            text(b"\xE0\x7F\x10\0OW\0\0\xFF\xFF\xFF\xFF"),
            "Pixel Data (7FE0,0010), VR \"OW\", undefined length, followed by 0 bytes"
        );
        assert_eq!(
            text(b"\xE0\x7F\x10\0OW\x01\x02\x08\0\0\0a"),
            "Pixel Data (7FE0,0010), VR \"OW\", reserved bytes 01 02, length 8, followed by 1 byte"
        );
        assert_eq!(
            text(b"\xE0\x7F\x10\0OW\0\0\x08"),
            "Pixel Data (7FE0,0010), VR \"OW\", no length, followed by 0 bytes"
        );
        assert_eq!(text(b"\xFE\xFF\0\xE0\x04\0\0\0abcd"), "Item (FFFE,E000), length 4, followed by 4 bytes");
        assert_eq!((header(b"\x28\0\x10\0US\x02\0").tag, header(b"").tag), (tags::ROWS, 0));
    }

    #[test]
    fn findings_on_a_line() {
        let found = [Finding::plain(String::from("a")), Finding { tag: tags::ROWS, row: 7, text: String::from("b") }];
        assert_eq!(line(&found), "a; b");
        assert_eq!(found[0].json(), json!({ "text": "a" }));
        assert_eq!(found[1].json(), json!({ "tag": "(0028,0010)", "row": 7, "text": "b" }));
    }
}
