//! Files in a folder of runs that are certainly no runs.
//!
//! Only a file whose own bytes say what it is counts as something else. Whatever might be a damaged run stays refused.

use crate::buffer::RowBuffer;
use crate::codes::{Code, Coded};
use crate::head::{self, Form};
use crate::library::Answer;
use crate::names::tags;

const DIRECTORY: &str = "1.2.840.10008.1.3.10";
const OURS: [&str; 2] = ["1.2.840.10008.5.1.4.1.1.12.1.1", "1.2.840.10008.5.1.4.1.1.12.2.1"];

/// What a refused file is, if it is certainly no run.
pub fn what(content: &[u8], answer: &Answer, buffer: &mut RowBuffer) -> Option<String> {
    match answer.code() {
        Code::Done | Code::BadHead => None,
        Code::NotAFile => plain(content).map(String::from),
        code => {
            let class = head::uid(content, tags::MEDIA_STORAGE_SOP_CLASS_UID)?;
            let certain = match code {
                // The data set names the same class.
                Code::RuleBroken => true,
                Code::OtherSopClass => {
                    !data_class(content, buffer).map_or(false, |class| OURS.contains(&class.as_str()))
                }
                // The data set was not read.
                _ => !OURS.iter().any(|ours| is_near(ours, &class)),
            };
            match class.as_str() {
                _ if !certain || OURS.contains(&class.as_str()) => None,
                DIRECTORY => Some(String::from("a DICOMDIR")),
                other => Some(match class_name(other) {
                    Some(name) => format!("another SOP class, {name} ({other})"),
                    None => format!("another SOP class, {other}"),
                }),
            }
        }
    }
}

/// Whether two UIDs are equally long and differ in one character at most, as after damage.
fn is_near(one: &str, other: &str) -> bool {
    one.len() == other.len() && one.bytes().zip(other.bytes()).filter(|(one, other)| one != other).count() <= 1
}

/// The SOP class that the data set itself names.
fn data_class(content: &[u8], buffer: &mut RowBuffer) -> Option<String> {
    let data = &content[Form::File.start(content)..];
    let answer = buffer.read(Form::Bare, data).ok()?;
    let row = buffer.table(answer.rows).root(tags::SOP_CLASS_UID)?;
    let start = row.offset as usize;
    head::uid_text(data.get(start..start + row.length as usize)?)
}

/// How files of other kinds start, and what they are.
const STARTS: [(&[u8], &str); 11] = [
    (b"\x89PNG\r\n\x1a\n", "a picture (PNG)"),
    (b"\xFF\xD8\xFF", "a picture (JPEG)"),
    (b"GIF87a", "a picture (GIF)"),
    (b"GIF89a", "a picture (GIF)"),
    (b"II*\0", "a picture (TIFF)"),
    (b"MM\0*", "a picture (TIFF)"),
    (b"P5\n", "a picture (PGM)"),
    (b"P6\n", "a picture (PPM)"),
    (b"%PDF-", "a PDF document"),
    (b"\xD0\xCF\x11\xE0\xA1\xB1\x1A\xE1", "an Office document or Thumbs.db"),
    (b"\0\0\0\x01Bud1", "a .DS_Store"),
];

/// How an Office document of the newer kind starts: a ZIP archive whose first file lists the types of the others. Any other archive may hold runs.
const ZIP: &[u8] = b"PK\x03\x04";
const TYPES: &[u8] = b"[Content_Types].xml";
const FIRST_NAME: usize = 30;

/// How much of a file is read to see whether it is text.
const TEXT: usize = 1 << 16;

fn plain(content: &[u8]) -> Option<&'static str> {
    if content.is_empty() {
        return Some("an empty file");
    }
    if let Some((_, what)) = STARTS.iter().find(|(start, _)| content.starts_with(start)) {
        return Some(what);
    }
    if content.starts_with(b"BM") && content.get(2..6) == Some(&(content.len() as u32).to_le_bytes()[..]) {
        return Some("a picture (BMP)");
    }
    if content.starts_with(b"RIFF") && content.get(8..12) == Some(&b"WEBP"[..]) {
        return Some("a picture (WebP)");
    }
    if content.starts_with(ZIP) && content.get(FIRST_NAME..).is_some_and(|rest| rest.starts_with(TYPES)) {
        return Some("an Office document");
    }
    is_text(&content[..content.len().min(TEXT)]).then_some("text")
}

/// Whether bytes are text in UTF-8, in UTF-16 with its mark, or with one byte per character: they have no control characters but white space.
/// A data set has control characters in its first header.
fn is_text(bytes: &[u8]) -> bool {
    let wide = bytes.starts_with(b"\xFF\xFE") || bytes.starts_with(b"\xFE\xFF");
    let blank = |byte: u8| matches!(byte, b'\t' | b'\n' | b'\r' | 0x0C | 0x1B);
    bytes.iter().all(|&byte| byte >= b' ' && byte != 0x7F || blank(byte) || wide && byte == 0)
}

/// The names of some SOP classes (PS3.6, annex A).
fn class_name(uid: &str) -> Option<&'static str> {
    let name = match uid.strip_prefix("1.2.840.10008.5.1.4.1.1.")? {
        "1" => "Computed Radiography Image",
        "1.1" => "Digital X-Ray Image",
        "2" => "CT Image",
        "2.1" => "Enhanced CT Image",
        "4" => "MR Image",
        "4.1" => "Enhanced MR Image",
        "3.1" => "Ultrasound Multi-frame Image",
        "6.1" => "Ultrasound Image",
        "7" => "Secondary Capture Image",
        "7.1" | "7.2" | "7.3" | "7.4" => "Multi-frame Secondary Capture Image",
        "11.1" => "Grayscale Softcopy Presentation State",
        "11.5" => "XA/XRF Grayscale Softcopy Presentation State",
        "12.1" => "X-Ray Angiographic Image",
        "12.2" => "X-Ray Radiofluoroscopic Image",
        "13.1.1" => "X-Ray 3D Angiographic Image",
        "66" => "Raw Data",
        "88.11" => "Basic Text SR",
        "88.22" => "Enhanced SR",
        "88.33" => "Comprehensive SR",
        "88.59" => "Key Object Selection",
        "88.67" => "X-Ray Radiation Dose SR",
        "104.1" => "Encapsulated PDF",
        _ => return None,
    };
    Some(name)
}

#[cfg(test)]
mod tests {
    use super::*;

    #[test]
    fn kinds_of_files() {
        let what = |content: &[u8]| plain(content).unwrap_or_default();
        assert_eq!((what(b""), what(b"notes\n"), what(b"%PDF-1.7\0")), ("an empty file", "text", "a PDF document"));
        assert_eq!((what(b"\xFF\xD8\xFF\xE0"), what(b"P5\n1 1\n255\n\0")), ("a picture (JPEG)", "a picture (PGM)"));
        assert_eq!((what(b"BM\x07\0\0\0\0"), what(b"BM\x08\0\0\0\0")), ("a picture (BMP)", ""));
        assert_eq!((what(b"RIFF\0\0\0\0WEBP"), what(b"RIFF\0\0\0\0WAVE")), ("a picture (WebP)", ""));
        let zip = |name: &[u8]| [ZIP, &[0; FIRST_NAME - 4], name].concat();
        assert_eq!(
            (what(&zip(b"[Content_Types].xml")), what(&zip(b"run.dcm")), what(ZIP)),
            ("an Office document", "", "")
        );
    }

    #[test]
    fn texts() {
        for text in ["", "a\tb\r\n", "\u{E9}\u{4E2D}", "\x0C\x1B[0m"] {
            assert!(is_text(text.as_bytes()), "{text:?}");
        }
        assert!(is_text(b"\xE9 in Latin-1") && is_text(b"\xFF\xFEa\0") && is_text(b"\xFE\xFF\0a"));
        // The first header of a data set has control characters.
        assert!(!is_text(b"a\0") && !is_text(b"\x7F") && !is_text(b"\x08\0\x05\0CS"));
        // Only the start of a long file is read.
        let mut long = vec![b'a'; TEXT + 1];
        long[TEXT] = 0;
        assert_eq!(plain(&long), Some("text"));
    }

    #[test]
    fn near_uids() {
        assert!(is_near(OURS[0], OURS[0]) && is_near(OURS[0], &OURS[0].replace("12.1.1", "12.1.7")));
        assert!(!is_near("1.2.3", "1.2.34") && !is_near("1.2.3", "1.3.4"));
    }
}
