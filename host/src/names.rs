//! Attributes by tag and by name (PS3.6). The names come from the dictionary that `build.rs` reads.

include!(concat!(env!("OUT_DIR"), "/names.rs"));

/// The tags that the tool looks for or writes, by their attributes' names.
pub mod tags {
    macro_rules! tags {
        ($($name:ident = $tag:literal),+ $(,)?) => {
            $(pub const $name: u32 = $tag;)+
            #[cfg(test)]
            pub const ALL: &[(&str, u32)] = &[$((stringify!($name), $tag)),+];
        };
    }

    tags! {
        FILE_META_INFORMATION_GROUP_LENGTH = 0x0002_0000,
        FILE_META_INFORMATION_VERSION = 0x0002_0001,
        MEDIA_STORAGE_SOP_CLASS_UID = 0x0002_0002,
        MEDIA_STORAGE_SOP_INSTANCE_UID = 0x0002_0003,
        TRANSFER_SYNTAX_UID = 0x0002_0010,
        IMPLEMENTATION_CLASS_UID = 0x0002_0012,
        SPECIFIC_CHARACTER_SET = 0x0008_0005,
        IMAGE_TYPE = 0x0008_0008,
        SOP_CLASS_UID = 0x0008_0016,
        SOP_INSTANCE_UID = 0x0008_0018,
        ACQUISITION_DATETIME = 0x0008_002A,
        MODALITY = 0x0008_0060,
        INSTITUTION_NAME = 0x0008_0080,
        STATION_NAME = 0x0008_1010,
        RECOMMENDED_DISPLAY_FRAME_RATE = 0x0008_2144,
        REFERENCED_OTHER_PLANE_SEQUENCE = 0x0008_9410,
        PATIENT_NAME = 0x0010_0010,
        PATIENT_ID = 0x0010_0020,
        PATIENT_BIRTH_DATE = 0x0010_0030,
        CINE_RATE = 0x0018_0040,
        KVP = 0x0018_0060,
        RADIATION_SETTING = 0x0018_1155,
        RADIATION_MODE = 0x0018_115A,
        POSITIONER_TYPE = 0x0018_1508,
        CONTENT_QUALIFICATION = 0x0018_9004,
        FRAME_ACQUISITION_DATETIME = 0x0018_9074,
        EXPOSURE_TIME_IN_MS = 0x0018_9328,
        X_RAY_TUBE_CURRENT_IN_MA = 0x0018_9330,
        EXPOSURE_IN_MAS = 0x0018_9332,
        PLANES_IN_ACQUISITION = 0x0018_9410,
        XA_XRF_FRAME_CHARACTERISTICS_SEQUENCE = 0x0018_9412,
        PLANE_IDENTIFICATION = 0x0018_9457,
        STUDY_INSTANCE_UID = 0x0020_000D,
        FRAME_CONTENT_SEQUENCE = 0x0020_9111,
        SAMPLES_PER_PIXEL = 0x0028_0002,
        PHOTOMETRIC_INTERPRETATION = 0x0028_0004,
        NUMBER_OF_FRAMES = 0x0028_0008,
        ROWS = 0x0028_0010,
        COLUMNS = 0x0028_0011,
        BITS_ALLOCATED = 0x0028_0100,
        BITS_STORED = 0x0028_0101,
        HIGH_BIT = 0x0028_0102,
        PIXEL_REPRESENTATION = 0x0028_0103,
        BURNED_IN_ANNOTATION = 0x0028_0301,
        PIXEL_INTENSITY_RELATIONSHIP = 0x0028_1040,
        WINDOW_CENTER = 0x0028_1050,
        WINDOW_WIDTH = 0x0028_1051,
        VOI_LUT_FUNCTION = 0x0028_1056,
        LOSSY_IMAGE_COMPRESSION = 0x0028_2110,
        LOSSY_IMAGE_COMPRESSION_RATIO = 0x0028_2112,
        LOSSY_IMAGE_COMPRESSION_METHOD = 0x0028_2114,
        LUT_DESCRIPTOR = 0x0028_3002,
        LUT_DATA = 0x0028_3006,
        MASK_SUBTRACTION_SEQUENCE = 0x0028_6100,
        MASK_OPERATION = 0x0028_6101,
        APPLICABLE_FRAME_RANGE = 0x0028_6102,
        MASK_FRAME_NUMBERS = 0x0028_6110,
        CONTRAST_FRAME_AVERAGING = 0x0028_6112,
        MASK_SUB_PIXEL_SHIFT = 0x0028_6114,
        TID_OFFSET = 0x0028_6120,
        FRAME_VOI_LUT_SEQUENCE = 0x0028_9132,
        FRAME_PIXEL_SHIFT_SEQUENCE = 0x0028_9415,
        SUBTRACTION_ITEM_ID = 0x0028_9416,
        PIXEL_INTENSITY_RELATIONSHIP_LUT_SEQUENCE = 0x0028_9422,
        FRAME_PIXEL_DATA_PROPERTIES_SEQUENCE = 0x0028_9443,
        LUT_FUNCTION = 0x0028_9474,
        PRESENTATION_LUT_SHAPE = 0x2050_0020,
        SHARED_FUNCTIONAL_GROUPS_SEQUENCE = 0x5200_9229,
        PER_FRAME_FUNCTIONAL_GROUPS_SEQUENCE = 0x5200_9230,
        PIXEL_DATA = 0x7FE0_0010,
        ITEM = 0xFFFE_E000,
    }
}

/// The name of a tag. Private attributes have no name of their own.
pub fn name(tag: u32) -> &'static str {
    if let Ok(place) = SINGLE.binary_search_by_key(&tag, |&(one, _)| one) {
        return SINGLE[place].1;
    }
    let repeated = REPEATED.iter().find(|(mask, one, _)| tag & mask == *one);
    match (repeated, tag >> 16 & 1, tag & 0xFFFF) {
        (Some((_, _, name)), _, _) => name,
        (None, _, 0) => "Group Length",
        (None, 1, 0x10..=0xFF) => "Private Creator",
        (None, 1, _) => "Private",
        _ => "Unknown",
    }
}

/// A tag as the standard writes it.
pub fn tag_text(tag: u32) -> String {
    format!("({:04X},{:04X})", tag >> 16, tag & 0xFFFF)
}

/// Name and tag.
pub fn called(tag: u32) -> String {
    format!("{} {}", name(tag), tag_text(tag))
}

#[cfg(test)]
mod tests {
    use super::*;

    #[test]
    fn tags_have_the_names_of_the_dictionary() {
        for &(constant, tag) in tags::ALL {
            let words = name(tag).replace("'s", "").to_uppercase();
            assert_eq!(constant, words.replace(|letter: char| !letter.is_ascii_alphanumeric(), "_"));
        }
    }
}
