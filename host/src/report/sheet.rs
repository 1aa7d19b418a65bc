//! The table beside the page.

use super::{by_text, Entry};
use crate::codes::Coded;
use crate::identity::FIELDS;

/// A cell that no spreadsheet takes for a formula: text that starts like one gets an apostrophe in front.
fn cell(text: &str) -> String {
    match text.starts_with(['=', '+', '-', '@', '\t', '\r']) {
        true => format!("'{text}"),
        false => String::from(text),
    }
}

fn row(entry: &Entry, patient: bool) -> Vec<String> {
    let mut row = vec![entry.path.clone(), String::from(entry.end().verdict())];
    let judged = entry.judged();
    let answer = judged.map(|judged| judged.answer).unwrap_or_default();
    row.push(entry.by().map_or_else(String::new, by_text));
    for number in
        [answer.number(), answer.rule, answer.frame, judged.map_or(0, |judged| judged.item_row), answer.offset]
    {
        row.push(judged.map_or_else(String::new, |_| number.to_string()));
    }
    row.push(entry.looked.seen.as_ref().map_or_else(
        |_| String::new(),
        |(_, pictures)| match pictures.frames {
            0 => String::new(),
            frames => frames.to_string(),
        },
    ));
    row.push(String::from(entry.sentence()));
    row.push(entry.found());
    row.push(judged.and_then(|judged| judged.hint.clone()).unwrap_or_default());
    for field in FIELDS.iter().filter(|field| patient || !field.patient) {
        let value = entry.identity().and_then(|identity| identity.shown(patient).find(|(one, _)| one.tag == field.tag));
        row.push(value.map_or_else(String::new, |(_, text)| String::from(text)));
    }
    row.iter().map(|text| cell(text)).collect()
}

/// How every table starts: the names of the columns, but for those about the patient.
pub const START: &str = "file,verdict,by,code,rule,frame,item_row,offset,frames,sentence,found,hint,\
    sop_instance_uid,study_instance_uid,institution_name,station_name,acquisition_datetime";

/// A row for each file, in order, below a row of column names.
pub fn made(entries: &[Entry], patient: bool) -> Result<Vec<u8>, String> {
    let mut table = csv::Writer::from_writer(Vec::new());
    let keys = FIELDS.iter().filter(|field| patient && field.patient).map(|field| field.key);
    let names = START.split(',').chain(keys).map(String::from).collect();
    for row in std::iter::once(names).chain(entries.iter().map(|entry| row(entry, patient))) {
        table.write_record(row).map_err(|error| error.to_string())?;
    }
    table.into_inner().map_err(|error| error.to_string())
}

#[cfg(test)]
mod tests {
    use super::*;

    #[test]
    fn no_cell_is_a_formula() {
        assert_eq!(["=1+1", "+1", "-1", "@a", "\t=1", "\r=1"].map(|text| cell(text).remove(0)), ['\''; 6]);
        assert_eq!(["", "1-1", "a=1", "'=1", " =1"].map(cell), ["", "1-1", "a=1", "'=1", " =1"]);
    }

    #[test]
    fn columns_are_those_of_the_identity() {
        let keys: Vec<&str> = FIELDS.iter().map(|field| field.key).collect();
        let first = |patient| {
            let made = String::from_utf8(made(&[], patient).unwrap()).unwrap();
            made.trim_end().split(',').map(String::from).collect::<Vec<_>>()
        };
        assert!(
            first(false).starts_with(&["file", "verdict"].map(String::from))
                && first(true).ends_with(&keys.iter().map(|key| String::from(*key)).collect::<Vec<_>>())
        );
        let known = FIELDS.iter().filter(|field| !field.patient).count();
        assert_eq!(
            (first(false).len() + keys.len() - known, first(false)[12..].join(",")),
            (first(true).len(), keys[..known].join(","))
        );
    }
}
