//! What is printed about rules and answers. It is only for display; nothing depends on it.

use crate::codes::{Code, Coded};
use crate::library::Answer;
use crate::names::{tag_text, tags};

// `COUNT`: how many rules there are. `RULES`: what each asks, rule 1 first. `build.rs` takes the first from the header, the sentences from the
// program `judge_one`.
include!(concat!(env!("OUT_DIR"), "/rules.rs"));

/// The sentence of a rule.
pub fn rule(number: u32) -> &'static str {
    let place = (number as usize).wrapping_sub(1);
    RULES.get(place).copied().unwrap_or("no such rule")
}

/// What an answer means: its rule's sentence, or its code's.
pub fn meaning(given: &Answer) -> &'static str {
    match given.code() {
        Code::RuleBroken => rule(given.rule),
        other => other.meaning(),
    }
}

/// An answer on a line: accepted; or the rule, the frame and the sentence; or the code, the offset and the meaning. The row of the frame's
/// item is added unless it is 0. With `start`, where a file's data set starts, an offset is also given from the start of the file.
pub fn answer(given: &Answer, item_row: u32, start: Option<usize>) -> String {
    text(given, &item(given.frame, item_row), start)
}

/// The verdict that a slip records, on a line, with its row count.
pub fn slip(verdict: &Answer, rows: Option<u32>) -> String {
    let count = rows.map_or_else(|| String::from("not known"), |count| count.to_string());
    text(verdict, &format!(", rows {count}"), None)
}

/// An answer on a line: its numbers, `more`, and its meaning.
fn text(given: &Answer, more: &str, start: Option<usize>) -> String {
    let numbers = match given.code() {
        Code::Done => return format!("accepted{more}"),
        code if code.is_of_a_header() => {
            let place = match start {
                Some(start) => format!(" of the data set, byte {} of the file", start + given.offset as usize),
                None => String::new(),
            };
            format!("code {} at byte {}{place}", given.number(), given.offset)
        }
        Code::RuleBroken => format!("rule {}, frame {}", given.rule, given.frame),
        _ => format!("code {}", given.number()),
    };
    format!("{numbers}{more}: {}", meaning(given))
}

/// What a frame's item is called.
pub fn frame_item(frame: u32) -> String {
    format!("item {frame} of {}", tag_text(tags::PER_FRAME_FUNCTIONAL_GROUPS_SEQUENCE))
}

/// Which item of the data set is a frame's, and its row.
fn item(frame: u32, row: u32) -> String {
    match row {
        0 => String::new(),
        _ => format!(", {}, row {row}", frame_item(frame)),
    }
}

#[cfg(test)]
#[allow(dead_code)]
#[path = "../build.rs"]
mod build;

#[cfg(test)]
mod tests {
    use super::*;

    /// The table is the program's, and a source in another form is refused.
    #[test]
    fn the_build_takes_the_sentences() {
        let source = include_str!("../../crates/judge_one/src/sentence.rt");
        let of = |source: &str| build::sentences(source, COUNT).map(|found| found.join("\n"));
        assert_eq!(of(source).unwrap(), RULES.join("\n"));
        for (old, new) in [
            ("    \"Samples", "    9 => \"Samples"),
            ("    \"Samples", "    b\"Samples"),
            ("    \"Samples", "    Samples"),
            ("US must be 1.\",", "US must be 1\","),
            ("US must be 1.\",", "US must be \\x31.\","),
            ("US must be 1.\",", "US must be 1.\", \"So it is.\","),
            ("    \"Samples per Pixel (0028,0002) US must be 1.\",\n", ""),
            (&format!("&str; {COUNT}]"), "&str; 0]"),
        ] {
            assert!(source.contains(old), "{old}");
            assert!(of(&source.replacen(old, new, 1)).is_err(), "{new}");
        }
        assert!(of("").is_err() && build::sentences(source, COUNT + 1).is_err());
        assert_eq!(build::count(include_str!("../../include/luuxidgaan.h")), Some(COUNT));
        assert_eq!((build::count(""), build::count("#define XA_RULES many")), (None, None));
    }

    /// An answer as the library would give it.
    fn given(fields: serde_json::Value) -> Answer {
        let mut all = serde_json::to_value(Answer::default()).unwrap();
        all.as_object_mut().unwrap().extend(fields.as_object().unwrap().clone());
        serde_json::from_value(all).unwrap()
    }

    #[test]
    fn each_rule_has_a_sentence() {
        let last = COUNT as u32;
        assert!((1..=last).all(|number| rule(number).ends_with('.') && rule(number).contains('(')));
        assert!([0, last + 1, u32::MAX].iter().all(|&number| rule(number) == "no such rule"));
        assert!(rule(38).starts_with("Pixel Data (7FE0,0010) must be OW"));
    }

    #[test]
    fn answers_in_a_line() {
        assert_eq!(answer(&Answer::default(), 0, None), "accepted");
        let cut = given(serde_json::json!({"code": 1, "offset": 10}));
        let said = answer(&cut, 0, Some(300));
        assert!(said.starts_with("code 1 at byte 10 of the data set, byte 310 of the file: cut short"), "{said}");
        assert!(answer(&cut, 0, None).starts_with("code 1 at byte 10: cut short"));
        let broken = given(serde_json::json!({"code": 9, "rule": 28, "frame": 5}));
        assert_eq!(answer(&broken, 48, None), format!("rule 28, frame 5, item 5 of (5200,9230), row 48: {}", rule(28)));
        assert_eq!(answer(&broken, 0, None), format!("rule 28, frame 5: {}", rule(28)));
        assert_eq!(answer(&given(serde_json::json!({"code": 10})), 0, None), "code 10: no such frame");
        assert_eq!(answer(&given(serde_json::json!({"code": 77})), 0, None), "code 77: unknown code");
    }

    #[test]
    fn slips_in_a_line() {
        assert_eq!(slip(&Answer::default(), Some(57)), "accepted, rows 57");
        assert_eq!(slip(&Answer::default(), None), "accepted, rows not known");
        let broken = given(serde_json::json!({"code": 9, "rule": 1}));
        assert_eq!(slip(&broken, Some(0)), format!("rule 1, frame 0, rows 0: {}", rule(1)));
    }
}
