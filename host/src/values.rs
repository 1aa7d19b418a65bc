//! Values of elements in print: short, on one line, in the run's own character set. They are only for display; nothing depends on them.

use encoding_rs::Encoding;

use crate::files;
use crate::names::tags;
use crate::table::{Row, Table};

/// A data set and its rows, ready to be quoted from.
#[derive(Clone, Copy)]
pub struct Source<'a> {
    pub data: &'a [u8],
    pub table: Table<'a>,
    letters: &'static Encoding,
}

impl<'a> Source<'a> {
    pub fn of(data: &'a [u8], table: Table<'a>) -> Source<'a> {
        let plain = Source { data, table, letters: encoding_rs::WINDOWS_1252 };
        let named = table.root(tags::SPECIFIC_CHARACTER_SET).map_or_else(String::new, |row| plain.text(&row));
        Source { letters: encoding(&named), ..plain }
    }

    pub fn bytes(&self, row: &Row) -> &'a [u8] {
        let start = row.offset as usize;
        self.data.get(start..start.saturating_add(row.length as usize)).unwrap_or_default()
    }

    /// The text of a value, without the padding at its end. A backslash separates values; other characters that are not plain are escaped.
    pub fn text(&self, row: &Row) -> String {
        let bytes = self.bytes(row);
        let end = bytes.iter().rposition(|&byte| byte != 0 && byte != b' ').map_or(0, |last| last + 1);
        self.letters.decode_without_bom_handling(&bytes[..end]).0.chars().map(shown).collect()
    }

    /// A value in at most so many characters: text in quotes, numbers separated by backslashes, otherwise the number of items or bytes.
    pub fn value(&self, row: &Row, most: usize) -> String {
        if row.is_item() {
            return String::new();
        }
        let vr = row.vr_text();
        if vr == "SQ" {
            return counted(self.table.members(row.number).count(), "item");
        }
        if row.length == 0 {
            return String::from("empty");
        }
        match numbers(&vr, self.bytes(row)) {
            Some(numbers) => shortened(&numbers.join("\\"), most),
            None if is_text(&vr) => format!("\"{}\"", shortened(&self.text(row), most)),
            None => counted(row.length as usize, "byte"),
        }
    }
}

/// A character of a value: as in the name of a file, but for backslashes, which separate values, and blanks of any width, which names of
/// people and places have.
fn shown(letter: char) -> String {
    let blank = letter.is_whitespace() && !letter.is_control() && !matches!(letter, '\u{2028}' | '\u{2029}');
    match blank || letter == '\\' {
        true => String::from(letter),
        false => files::escaped(letter),
    }
}

/// A number of things.
pub fn counted(count: usize, what: &str) -> String {
    format!("{count} {what}{}", if count == 1 { "" } else { "s" })
}

/// Counts behind a summary; those that are 0 are left out.
pub fn listed(counts: &[(usize, &str)]) -> String {
    let some = counts.iter().filter(|(count, _)| *count > 0);
    some.map(|(count, what)| format!(", {count} {what}")).collect()
}

/// The start of a text, with dots if there is more of it.
pub fn shortened(text: &str, most: usize) -> String {
    match text.char_indices().nth(most) {
        Some((place, _)) => format!("{}...", &text[..place]),
        None => String::from(text),
    }
}

fn is_text(vr: &str) -> bool {
    matches!(
        vr,
        "AE" | "AS"
            | "CS"
            | "DA"
            | "DS"
            | "DT"
            | "IS"
            | "LO"
            | "LT"
            | "PN"
            | "SH"
            | "ST"
            | "TM"
            | "UC"
            | "UI"
            | "UR"
            | "UT"
    )
}

fn each<const SIZE: usize>(bytes: &[u8], print: impl Fn([u8; SIZE]) -> String) -> Option<Vec<String>> {
    let whole = bytes.len() % SIZE == 0;
    whole.then(|| bytes.chunks_exact(SIZE).filter_map(|chunk| chunk.try_into().ok()).map(print).collect())
}

/// The numbers of a value, if its VR has numbers and its length is a whole count of them.
fn numbers(vr: &str, bytes: &[u8]) -> Option<Vec<String>> {
    match vr {
        "US" => each(bytes, |number| u16::from_le_bytes(number).to_string()),
        "SS" => each(bytes, |number| i16::from_le_bytes(number).to_string()),
        "UL" => each(bytes, |number| u32::from_le_bytes(number).to_string()),
        "SL" => each(bytes, |number| i32::from_le_bytes(number).to_string()),
        "UV" => each(bytes, |number| u64::from_le_bytes(number).to_string()),
        "SV" => each(bytes, |number| i64::from_le_bytes(number).to_string()),
        "FL" => each(bytes, |number| f32::from_le_bytes(number).to_string()),
        "FD" => each(bytes, |number| f64::from_le_bytes(number).to_string()),
        "AT" => each(bytes, |[a, b, c, d]: [u8; 4]| format!("({b:02X}{a:02X},{d:02X}{c:02X})")),
        _ => None,
    }
}

/// The encoding of a Specific Character Set (PS3.3 C.12.1.1.2). If it has several values, escape sequences switch between them, which only the
/// encodings of ISO 2022 follow.
fn encoding(named: &str) -> &'static Encoding {
    let terms: Vec<&str> = named.split('\\').map(str::trim).collect();
    let has =
        |term: &str| terms.iter().any(|one| one.trim_start_matches("ISO 2022 ").trim_start_matches("ISO_") == term);
    if ["IR 87", "IR 159", "IR 13"].into_iter().any(has) {
        return encoding_rs::ISO_2022_JP;
    }
    let known = [
        ("IR 192", encoding_rs::UTF_8),
        ("GB18030", encoding_rs::GB18030),
        ("GBK", encoding_rs::GBK),
        ("IR 58", encoding_rs::GBK),
        ("IR 149", encoding_rs::EUC_KR),
        ("IR 101", encoding_rs::ISO_8859_2),
        ("IR 109", encoding_rs::ISO_8859_3),
        ("IR 110", encoding_rs::ISO_8859_4),
        ("IR 144", encoding_rs::ISO_8859_5),
        ("IR 127", encoding_rs::ISO_8859_6),
        ("IR 126", encoding_rs::ISO_8859_7),
        ("IR 138", encoding_rs::ISO_8859_8),
        ("IR 148", encoding_rs::WINDOWS_1254),
        ("IR 166", encoding_rs::WINDOWS_874),
        ("IR 203", encoding_rs::ISO_8859_15),
    ];
    known.into_iter().find(|(term, _)| has(term)).map_or(encoding_rs::WINDOWS_1252, |(_, encoding)| encoding)
}

#[cfg(test)]
mod tests {
    use super::*;

    #[test]
    fn counts() {
        assert_eq!([0, 1, 2].map(|count| counted(count, "row")), ["0 rows", "1 row", "2 rows"]);
        assert_eq!(listed(&[(0, "a"), (2, "b"), (1, "c")]), ", 2 b, 1 c");
        assert_eq!(listed(&[(0, "a")]), "");
    }

    #[test]
    fn long_texts() {
        assert_eq!((shortened("abc", 3), shortened("abcd", 3)), (String::from("abc"), String::from("abc...")));
        // Characters are counted, and never cut.
        assert_eq!(shortened("\u{E9}\u{4E2D}x", 2), "\u{E9}\u{4E2D}...");
        assert_eq!((shortened("", 0), shortened("a", 0)), (String::new(), String::from("...")));
    }

    #[test]
    fn numbers_by_vr() {
        let text = |vr, bytes: &[u8]| numbers(vr, bytes).map(|numbers| numbers.join("\\"));
        let some = |text: &str| Some(String::from(text));
        assert_eq!((text("US", &[1, 2, 255, 255]), text("SS", &[254, 255])), (some("513\\65535"), some("-2")));
        assert_eq!((text("UL", &[0, 0, 0, 128]), text("SL", &[255; 4])), (some("2147483648"), some("-1")));
        assert_eq!((text("UV", &[255; 8]), text("SV", &[255; 8])), (some("18446744073709551615"), some("-1")));
        assert_eq!(text("FL", &[1.5f32.to_le_bytes(), (-2f32).to_le_bytes()].concat()), some("1.5\\-2"));
        assert_eq!(
            (text("FD", &0.1f64.to_le_bytes()), text("AT", &[0x18, 0, 0x63, 0x10])),
            (some("0.1"), some("(0018,1063)"))
        );
        // Neither part of a number nor text.
        assert_eq!(
            (text("US", &[1]), text("UL", &[1, 2]), text("LO", b"12"), text("US", &[])),
            (None, None, None, some(""))
        );
    }

    #[test]
    fn characters() {
        assert_eq!([' ', '\u{E9}', '\\', '\u{A0}', '\u{3000}'].map(shown).concat(), " \u{E9}\\\u{A0}\u{3000}");
        assert_eq!(
            ['\n', '\x1B', '\u{202E}', '\u{2028}', '\u{85}'].map(shown).concat(),
            "\\x0A\\x1B\\u{202E}\\u{2028}\\u{85}"
        );
    }

    #[test]
    fn character_sets() {
        for (named, name) in [
            ("", "windows-1252"),
            ("ISO_IR 100", "windows-1252"),
            ("ISO_IR 192", "UTF-8"),
            ("ISO 2022 IR 100 \\ISO 2022 IR 144", "ISO-8859-5"),
            ("\\ISO 2022 IR 87", "ISO-2022-JP"),
            ("\\ISO 2022 IR 149", "EUC-KR"),
            ("GB18030", "gb18030"),
            ("ISO_IR 1920", "windows-1252"),
        ] {
            assert_eq!(encoding(named).name(), name, "{named}");
        }
    }
}
