//! The text for a sender, to paste into a letter: each refused run with its rule, its frame and what was found.

use super::{by_text, End, Entry, Sender, Sent};
use crate::codes::{Code, Coded};
use crate::names::{self, tags};
use crate::sentences;

/// The rule or code, with the frame and its item, or the byte.
fn place(entry: &Entry) -> String {
    let (Some(judged), Some(by)) = (entry.judged(), entry.by()) else {
        return String::new();
    };
    let answer = &judged.answer;
    let mut text = by_text(by);
    text[..1].make_ascii_uppercase();
    if answer.frame > 0 {
        let item = sentences::frame_item(answer.frame);
        text.push_str(&format!(", frame {} ({item}, row {})", answer.frame, judged.item_row));
    }
    if answer.code().is_of_a_header() {
        text.push_str(&format!(" at byte {} of the data set", answer.offset));
    }
    text
}

fn refused(number: usize, entry: &Entry, patient: bool) -> String {
    let mut lines = vec![format!("{number}. File: {}", entry.path)];
    if let Some(judged) = entry.judged() {
        // The sender is named at the top.
        let shown = judged
            .identity
            .shown(patient)
            .filter(|(field, _)| !matches!(field.tag, tags::INSTITUTION_NAME | tags::STATION_NAME));
        lines.extend(shown.map(|(field, text)| format!("{}: {text}", names::name(field.tag))));
        lines.push(format!("{}: {}", place(entry), entry.sentence()));
        if !judged.found.is_empty() {
            lines.push(format!("Found: {}", entry.found()));
        }
        if let (Code::OtherTransferSyntax, Some(hint)) = (judged.answer.code(), &judged.hint) {
            lines.push(format!("Found: {}", hint.replace("ask the sender for", "please send")));
        }
    }
    lines.join("\n   ")
}

/// The whole text; nothing if no run was refused.
pub fn text(sent: &Sent, entries: &[Entry], patient: bool) -> Option<String> {
    let all = sent.entries.iter().map(|&place| &entries[place]).filter(|entry| entry.end() == End::Refused);
    let listed: Vec<String> = all.enumerate().map(|(place, entry)| refused(place + 1, entry, patient)).collect();
    if listed.is_empty() {
        return None;
    }
    let refused = match sent.entries.len() {
        1 => String::from("the run"),
        sent => format!("{} of the {sent} runs", listed.len()),
    };
    let them = if listed.len() == 1 { "it" } else { "them" };
    let Sender { institution, station } = &sent.sender;
    let to: String = [(tags::INSTITUTION_NAME, institution), (tags::STATION_NAME, station)]
        .into_iter()
        .filter(|(_, name)| !name.is_empty())
        .map(|(tag, name)| format!("{}: {name}\n", names::name(tag)))
        .collect();
    let gap = if to.is_empty() { "" } else { "\n" };
    Some(format!(
        "{to}{gap}Our import desk refused {refused} that you sent. Please correct {them} and send {them} again.\n\n{}\n",
        listed.join("\n\n")
    ))
}

#[cfg(test)]
mod tests {
    use serde_json::json;

    use super::*;
    use crate::report::{Looked, Pictures};

    /// A run that rule 28 refused, or that was accepted.
    fn entry(path: &str, refused: bool) -> Entry {
        let mut answer = serde_json::to_value(crate::library::Answer::default()).unwrap();
        if refused {
            answer["code"] = json!(9);
            answer["rule"] = json!(28);
            answer["frame"] = json!(5);
        }
        let judged = json!({
            "answer": answer, "item_row": 48, "start": null, "hint": null, "found": [{"tag": 0, "row": 0, "text": "nothing"}],
            "identity": [[tags::SOP_INSTANCE_UID, "1.2"], [tags::STATION_NAME, "XA3"], [tags::PATIENT_NAME, "Secret"]],
        });
        let seen = Ok((serde_json::from_value(judged).unwrap(), Pictures::default()));
        Entry { path: String::from(path), looked: Looked { seen, other: None }, arriving: None }
    }

    fn letter(refused: &[bool], patient: bool) -> Option<String> {
        let entries: Vec<Entry> = refused.iter().map(|&refused| entry("a.dcm", refused)).collect();
        let sender = Sender { institution: String::new(), station: String::from("XA3") };
        text(&Sent { sender, entries: (0..entries.len()).collect() }, &entries, patient)
    }

    #[test]
    fn one_run_and_several() {
        let starts = |refused: &[bool], words: &str| {
            let said = letter(refused, false).unwrap();
            assert!(
                said.starts_with(&format!("Station Name: XA3\n\nOur import desk refused {words}\n\n1. File: a.dcm\n")),
                "{said}"
            );
        };
        starts(&[true], "the run that you sent. Please correct it and send it again.");
        starts(&[true, false], "1 of the 2 runs that you sent. Please correct it and send it again.");
        starts(&[true, false, true], "2 of the 3 runs that you sent. Please correct them and send them again.");
        assert!(letter(&[false], false).is_none() && letter(&[], false).is_none());
    }

    #[test]
    fn a_refusal() {
        let said = letter(&[true], false).unwrap();
        let lines: Vec<&str> = said.lines().skip(4).map(str::trim).collect();
        let rule = format!("Rule 28, frame 5 (item 5 of (5200,9230), row 48): {}", sentences::rule(28));
        assert_eq!(lines, ["1. File: a.dcm", "SOP Instance UID: 1.2", &rule, "Found: nothing"]);
        assert!(letter(&[true], true).unwrap().contains("Patient's Name: Secret"));
    }
}
