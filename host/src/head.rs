//! Files and bare data sets, and what is printed about them. The library says which bytes are the data set, and whether a file's head is
//! good; the text here is only for display.

use serde::{Deserialize, Serialize};

use crate::buffer::RowBuffer;
use crate::codes::{Code, Coded};
use crate::found::{self, Finding};
use crate::identity::Identity;
use crate::library::{self, Answer};
use crate::names::tags;
use crate::sentences;
use crate::table::Table;
use crate::values::Source;

/// What the files are. The user says so; it is never guessed.
#[derive(Clone, Copy, PartialEq, Eq)]
pub enum Form {
    /// DICOM files with their heads.
    File,
    /// Data sets without a head.
    Bare,
}

impl Form {
    pub fn of(bare: bool) -> Form {
        match bare {
            true => Form::Bare,
            false => Form::File,
        }
    }

    /// The data set. A file whose head is refused has none.
    pub fn data_set(self, content: &[u8]) -> &[u8] {
        match self {
            Form::File => {
                let part = library::data_set(content);
                if part.is_done() {
                    &content[part.start..]
                } else {
                    &[]
                }
            }
            Form::Bare => content,
        }
    }

    /// Where the data set starts; 0 in a file whose head is refused.
    pub fn start(self, content: &[u8]) -> usize {
        match self {
            Form::File => library::data_set(content).start,
            Form::Bare => 0,
        }
    }
}

/// The library's answer about a file, and what helps the sender.
#[derive(Serialize, Deserialize)]
pub struct Judged {
    pub answer: Answer,
    /// The row of the frame's item if a rule is broken at a frame; else 0.
    pub item_row: u32,
    /// Where the data set starts in the file; nothing for a bare data set.
    pub start: Option<usize>,
    pub hint: Option<String>,
    /// What a refusal found.
    pub found: Vec<Finding>,
    pub identity: Identity,
}

impl Judged {
    pub fn of(form: Form, content: &[u8], answer: Answer, table: Table) -> Judged {
        let item_row = table.frame_item(answer.frame).map_or(0, |item| item.number);
        let start = (form == Form::File).then(|| form.start(content));
        let hint = match answer.code() {
            Code::NotAFile => Some(String::from("to read a data set without a head, use --bare")),
            Code::OtherTransferSyntax => Some(wanted(content)),
            _ => None,
        };
        let (found, identity) = quoted(form, content, &answer, table);
        Judged { answer, item_row, start, hint, found, identity }
    }

    /// The answer on a line, with what was found and the hint, if there are any.
    pub fn line(&self) -> String {
        let mut text = sentences::answer(&self.answer, self.item_row, self.start);
        if !self.found.is_empty() {
            let by_rule = self.answer.code() == Code::RuleBroken;
            text.push_str(if by_rule { " Found: " } else { "; found: " });
            text.push_str(&found::line(&self.found));
            text.push_str(if by_rule { "." } else { "" });
        }
        if let Some(hint) = &self.hint {
            text.push_str("; ");
            text.push_str(hint);
        }
        text
    }
}

/// The rows of a data set, or of the part before the header at which reading stops; none if that part does not read by itself.
fn rows_of(data: &[u8]) -> (RowBuffer, u32) {
    let mut buffer = RowBuffer::default();
    let mut end = data.len();
    for _ in 0..2 {
        let Ok(answer) = buffer.read(Form::Bare, &data[..end]) else {
            break;
        };
        if answer.is_done() {
            return (buffer, answer.rows);
        }
        if !answer.code().is_of_a_header() || answer.offset as usize >= end {
            break;
        }
        end = answer.offset as usize;
    }
    (buffer, 0)
}

/// A file's head without its mark, and the data set after it, by the length that the head gives; nothing if it gives none. Only for print:
/// the library gives no start for a head that it refuses.
fn parts(form: Form, content: &[u8]) -> (&[u8], &[u8]) {
    let length = match content.get(132..144) {
        _ if form == Form::Bare => return (&[], content),
        Some(&[2, 0, 0, 0, b'U', b'L', 4, 0, a, b, c, d]) => u32::from_le_bytes([a, b, c, d]) as usize,
        _ => return (&[], &[]),
    };
    let end = content.len().min(144 + length);
    (&content[132..end], &content[end..])
}

/// What a refusal found, and what identifies the run.
fn quoted(form: Form, content: &[u8], answer: &Answer, table: Table) -> (Vec<Finding>, Identity) {
    let (head, data) = parts(form, content);
    // With these codes the library has written the rows and says how many there are.
    if matches!(answer.code(), Code::Done | Code::RuleBroken) {
        let source = Source::of(data, table);
        return (found::by_rule(source, answer), Identity::of(&source));
    }
    let ((head_rows, head_count), (rows, count)) = (rows_of(head), rows_of(data));
    let (of_head, of_data) = (Source::of(head, head_rows.table(head_count)), Source::of(data, rows.table(count)));
    let found = match form {
        Form::File if answer.code().is_of_a_head() => found::by_head(content, answer, &of_head, &of_data),
        _ => found::by_code(data, answer, of_data.table),
    };
    (found, Identity::of(&of_data).or_head(&of_head))
}

/// Whether a VR has two reserved bytes and a length of 32 bits (PS3.5, 7.1.2).
pub fn has_long_header(vr: [u8; 2]) -> bool {
    matches!(&vr, b"OB" | b"OD" | b"OF" | b"OL" | b"OV" | b"OW" | b"SQ" | b"SV" | b"UC" | b"UN" | b"UR" | b"UT" | b"UV")
}

/// Which transfer syntax it is, and which one to ask for.
fn wanted(content: &[u8]) -> String {
    let found = match uid(content, tags::TRANSFER_SYNTAX_UID) {
        Some(uid) => match syntax_name(&uid) {
            Some(name) => format!("it is {name} ({uid})"),
            None => format!("it is {uid}"),
        },
        None => String::from("its head names another"),
    };
    format!("{found}; ask the sender for Explicit VR Little Endian (1.2.840.10008.1.2.1), uncompressed")
}

/// The value of a UID in a file's head, for print.
pub fn uid(content: &[u8], tag: u32) -> Option<String> {
    let mut at = 132;
    loop {
        let header = content.get(at..at + 8)?;
        let (start, length) = if has_long_header([header[4], header[5]]) {
            let length = content.get(at + 8..at + 12)?;
            (at + 12, u32::from_le_bytes([length[0], length[1], length[2], length[3]]) as usize)
        } else {
            (at + 8, usize::from(u16::from_le_bytes([header[6], header[7]])))
        };
        let value = content.get(start..start.checked_add(length)?)?;
        let [group, element] = [0, 2].map(|place| u32::from(u16::from_le_bytes([header[place], header[place + 1]])));
        if group << 16 | element == tag {
            return uid_text(value);
        }
        if group != tag >> 16 {
            return None;
        }
        at = start + length;
    }
}

/// A UID without its padding.
pub fn uid_text(value: &[u8]) -> Option<String> {
    let letters = value.iter().take_while(|&&byte| byte != 0);
    Some(letters.map(|&byte| if byte.is_ascii_graphic() { byte as char } else { '?' }).take(64).collect())
}

/// The name of a transfer syntax (PS3.6, annex A).
fn syntax_name(uid: &str) -> Option<&'static str> {
    let name = match uid.strip_prefix("1.2.840.10008.1.2")? {
        "" => "Implicit VR Little Endian",
        ".1.98" => "Encapsulated Uncompressed Explicit VR Little Endian",
        ".1.99" => "Deflated Explicit VR Little Endian",
        ".2" => "Explicit VR Big Endian",
        ".4.50" => "JPEG Baseline",
        ".4.51" => "JPEG Extended",
        ".4.57" | ".4.70" => "JPEG Lossless",
        ".4.80" => "JPEG-LS Lossless",
        ".4.81" => "JPEG-LS Near-Lossless",
        ".4.90" => "JPEG 2000 Lossless",
        ".4.91" => "JPEG 2000",
        ".4.92" | ".4.93" => "JPEG 2000 Part 2",
        ".4.100" | ".4.100.1" | ".4.101" | ".4.101.1" => "MPEG2",
        ".4.102" | ".4.102.1" | ".4.103" | ".4.103.1" | ".4.104" | ".4.104.1" | ".4.105" | ".4.105.1" | ".4.106"
        | ".4.106.1" => "MPEG-4 AVC/H.264",
        ".4.107" | ".4.108" => "HEVC/H.265",
        ".4.201" | ".4.202" | ".4.203" => "High-Throughput JPEG 2000",
        ".5" => "RLE Lossless",
        _ => return None,
    };
    Some(name)
}

#[cfg(test)]
mod tests {
    use super::*;

    /// The preamble and the mark, then these bytes.
    fn marked(rest: &[u8]) -> Vec<u8> {
        [&[0; 128][..], b"DICM", rest].concat()
    }

    #[test]
    fn uids_of_a_head() {
        let class = b"\x02\0\x02\0UI\x06\x001.2.3\0";
        let version = b"\x02\0\x01\0OB\0\0\x02\0\0\0\0\x01";
        let of = |rest: &[u8], tag| uid(&marked(rest), tag);
        let head = [&version[..], class].concat();
        assert_eq!(of(&head, tags::MEDIA_STORAGE_SOP_CLASS_UID).as_deref(), Some("1.2.3"));
        // Neither a later tag nor one behind the head, nor what is cut short.
        assert_eq!(of(&head, tags::TRANSFER_SYNTAX_UID), None);
        let other = b"\x08\0\x16\0UI\x04\x001.2\0";
        assert_eq!(of(&[&other[..], class].concat(), tags::MEDIA_STORAGE_SOP_CLASS_UID), None);
        assert_eq!((of(&head[..20], tags::MEDIA_STORAGE_SOP_CLASS_UID), uid(b"", tags::ROWS)), (None, None));
        assert_eq!(of(b"\x02\0\x01\0OB\0\0\xFF\xFF\xFF\xFF", tags::MEDIA_STORAGE_SOP_CLASS_UID), None);
    }

    #[test]
    fn uids_in_print() {
        assert_eq!(uid_text(b"1.2\0").as_deref(), Some("1.2"));
        assert_eq!(uid_text(b"1.2\x1B\xFF 3").as_deref(), Some("1.2???3"));
        assert_eq!(uid_text(&[b'1'; 100]).map(|text| text.len()), Some(64));
    }

    #[test]
    fn heads_and_data_sets() {
        let file = marked(b"\x02\0\0\0UL\x04\0\x03\0\0\0abcdef");
        assert_eq!(parts(Form::File, &file), (&file[132..147], &b"def"[..]));
        // A length beyond the end, none, and no head.
        assert_eq!(parts(Form::File, &file[..145]), (&file[132..145], &b""[..]));
        assert_eq!(parts(Form::File, &marked(b"\x02\0\x01\0OB")), (&b""[..], &b""[..]));
        assert_eq!(parts(Form::Bare, &file), (&b""[..], &file[..]));
    }

    #[test]
    fn transfer_syntaxes() {
        assert_eq!(syntax_name("1.2.840.10008.1.2"), Some("Implicit VR Little Endian"));
        assert_eq!(syntax_name("1.2.840.10008.1.2.4.50"), Some("JPEG Baseline"));
        assert_eq!((syntax_name("1.2.840.10008.1.2.7"), syntax_name("1.2.3")), (None, None));
        let file = marked(b"\x02\0\x10\0UI\x04\x001.2\0");
        assert!(wanted(&file).starts_with("it is 1.2; ask the sender for Explicit VR Little Endian "));
        assert!(wanted(b"").starts_with("its head names another; ask the sender for "));
    }
}
