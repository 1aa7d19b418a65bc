//! What identifies a run: the elements that a letter to its sender quotes. Nothing about the patient is printed unless the user asks for it.

use serde::{Deserialize, Serialize};
use serde_json::{Map, Value};

use crate::names::{self, tags};
use crate::values::{shortened, Source};

/// An element: its key in JSON and CSV, and its tag at the root.
pub struct Field {
    pub key: &'static str,
    pub tag: u32,
    /// Whether it says who the patient is.
    pub patient: bool,
}

pub const FIELDS: [Field; 8] = [
    Field { key: "sop_instance_uid", tag: tags::SOP_INSTANCE_UID, patient: false },
    Field { key: "study_instance_uid", tag: tags::STUDY_INSTANCE_UID, patient: false },
    Field { key: "institution_name", tag: tags::INSTITUTION_NAME, patient: false },
    Field { key: "station_name", tag: tags::STATION_NAME, patient: false },
    Field { key: "acquisition_datetime", tag: tags::ACQUISITION_DATETIME, patient: false },
    Field { key: "patient_name", tag: tags::PATIENT_NAME, patient: true },
    Field { key: "patient_id", tag: tags::PATIENT_ID, patient: true },
    Field { key: "patient_birth_date", tag: tags::PATIENT_BIRTH_DATE, patient: true },
];

/// The most characters of a value that are quoted.
const MOST: usize = 200;

/// The group of the patient's own attributes.
const PATIENT: u32 = 0x0010;

/// Whether the value of a tag may say who the patient is.
pub fn is_of_patient(tag: u32) -> bool {
    tag >> 16 == PATIENT
}

/// The values that a run has, by their tags.
#[derive(Default, Serialize, Deserialize)]
pub struct Identity(Vec<(u32, String)>);

impl Identity {
    pub fn of(source: &Source) -> Identity {
        let had = FIELDS.iter().filter_map(|field| {
            let text = source.text(&source.table.root(field.tag)?);
            let text = shortened(text.trim(), MOST);
            (!text.is_empty()).then_some((field.tag, text))
        });
        Identity(had.collect())
    }

    /// Takes the instance from the file's head if the data set does not give it.
    pub fn or_head(mut self, head: &Source) -> Identity {
        let named =
            head.table.root(tags::MEDIA_STORAGE_SOP_INSTANCE_UID).map_or_else(String::new, |row| head.text(&row));
        if self.value(tags::SOP_INSTANCE_UID).is_none() && !named.is_empty() {
            self.0.push((tags::SOP_INSTANCE_UID, shortened(&named, MOST)));
        }
        self
    }

    /// The values that may be printed, in the order of the fields.
    pub fn shown(&self, patient: bool) -> impl Iterator<Item = (&'static Field, &str)> {
        let fields = FIELDS.iter().filter(move |field| patient || !field.patient);
        fields.filter_map(|field| Some((field, self.0.iter().find(|(tag, _)| *tag == field.tag)?.1.as_str())))
    }

    /// The value of a tag that may always be printed.
    pub fn value(&self, tag: u32) -> Option<&str> {
        self.shown(false).find(|(field, _)| field.tag == tag).map(|(_, text)| text)
    }

    /// A line for each value, below the line about the run.
    pub fn lines(&self, patient: bool) -> String {
        self.shown(patient).map(|(field, text)| format!("  {}: {text}\n", names::name(field.tag))).collect()
    }

    pub fn json(&self, patient: bool) -> Value {
        let fields: Map<String, Value> =
            self.shown(patient).map(|(field, text)| (String::from(field.key), Value::from(text))).collect();
        Value::Object(fields)
    }
}
