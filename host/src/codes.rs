//! The library's codes, under the names of `include/luuxidgaan.h`, and what each means. The texts are only printed; nothing depends on them.

/// What an answer says.
#[derive(Clone, Copy, Debug, PartialEq, Eq, PartialOrd, Ord)]
pub enum Code {
    Done,
    CutShort,
    TagOrder,
    UnknownVr,
    OddLength,
    OutOfPlace,
    TooDeep,
    TooLarge,
    NoRoomForRows,
    RuleBroken,
    NoSuchFrame,
    NoRoom,
    NotASlip,
    SlipVersion,
    ImpossibleVerdict,
    NotAFile,
    BadHead,
    OtherTransferSyntax,
    OtherSopClass,
    FramesReversed,
    NoToLinear,
    NoRoomForTarget,
    CellCount,
    ToleranceTooLarge,
    /// A code that the header does not have.
    Unknown,
}

/// Each code at the index that is its number, with its meaning.
const CODES: [(Code, &str); 24] = [
    (Code::Done, "accepted"),
    (Code::CutShort, "cut short: a header, a value or an open sequence runs past the end of what contains it"),
    (Code::TagOrder, "a tag that is not greater than the one before it"),
    (Code::UnknownVr, "an unknown VR"),
    (Code::OddLength, "an odd length"),
    (Code::OutOfPlace, "an item, a delimiter, reserved bytes or an undefined length out of place"),
    (Code::TooDeep, "sequences nested more than eight deep"),
    (Code::TooLarge, "more than 1073741824 bytes, the limit for a data set"),
    (Code::NoRoomForRows, "the buffer for the rows is too small"),
    (Code::RuleBroken, "a rule is broken"),
    (Code::NoSuchFrame, "no such frame"),
    (Code::NoRoom, "the buffer for the picture, the numbers or the slip is too small"),
    (Code::NotASlip, "not a slip: the wrong mark, or the wrong length for its version"),
    (Code::SlipVersion, "a slip of a version that is neither 1 nor 2"),
    (Code::ImpossibleVerdict, "a slip with fields that no verdict can have"),
    (Code::NotAFile, "not a DICOM file: no DICM at byte 128"),
    (
        Code::BadHead,
        "a bad file head: its group length must come first, its elements must be whole and of group 0002, and both UIDs must be there with one value",
    ),
    (Code::OtherTransferSyntax, "a transfer syntax other than Explicit VR Little Endian"),
    (Code::OtherSopClass, "the file's head and its data set name different SOP classes, or the data set names none"),
    (Code::FramesReversed, "the first frame comes after the last"),
    (Code::NoToLinear, "the frame has no TO_LINEAR item"),
    (Code::NoRoomForTarget, "the buffer for the canonical form is too small"),
    (Code::CellCount, "the number of cells is not Rows x Columns"),
    (Code::ToleranceTooLarge, "a tolerance over 255"),
];

impl Code {
    /// The code of a number.
    pub fn of(number: u32) -> Code {
        CODES.get(number as usize).map_or(Code::Unknown, |(code, _)| *code)
    }

    /// What it means.
    pub fn meaning(self) -> &'static str {
        CODES.get(self as usize).map_or("unknown code", |(_, meaning)| meaning)
    }

    /// Whether a header of the data set is refused; the answer then says its offset.
    pub fn is_of_a_header(self) -> bool {
        (Code::CutShort..=Code::TooDeep).contains(&self)
    }

    /// Whether a file is refused for its head, so that there is no verdict on its data set.
    pub fn is_of_a_head(self) -> bool {
        (Code::NotAFile..=Code::OtherSopClass).contains(&self)
    }
}

/// An answer that has a code.
pub trait Coded {
    /// The number of its code.
    fn number(&self) -> u32;

    fn code(&self) -> Code {
        Code::of(self.number())
    }

    /// Whether the call did what it was asked; for a verdict, whether the run is accepted.
    fn is_done(&self) -> bool {
        self.code() == Code::Done
    }
}

#[cfg(test)]
mod tests {
    use super::*;

    /// Names and numbers are the header's: `XA_CUT_SHORT = 1` is `CutShort`.
    #[test]
    fn codes_are_those_of_the_header() {
        let header = include_str!("../../include/luuxidgaan.h");
        let named =
            header.lines().filter_map(|line| line.strip_prefix("    XA_")?.trim_end_matches(',').split_once(" = "));
        let named: Vec<(String, u32)> =
            named.map(|(name, number)| (name.replace('_', "").to_lowercase(), number.parse().unwrap())).collect();
        let ours = (0..).zip(CODES).map(|(number, (code, _))| (format!("{code:?}").to_lowercase(), number));
        assert_eq!(named, ours.collect::<Vec<_>>());
    }

    #[test]
    fn each_code_stands_at_its_number() {
        for (number, (code, meaning)) in (0..).zip(CODES) {
            assert_eq!((Code::of(number), code as u32, code.meaning()), (code, number, meaning));
        }
        assert_eq!(
            (Code::of(24), Code::of(u32::MAX), Code::Unknown.meaning()),
            (Code::Unknown, Code::Unknown, "unknown code")
        );
    }

    #[test]
    fn kinds_of_codes() {
        let numbers = |kind: fn(Code) -> bool| (0..30).filter(|&number| kind(Code::of(number))).collect::<Vec<u32>>();
        assert_eq!(numbers(Code::is_of_a_header), [1, 2, 3, 4, 5, 6]);
        assert_eq!(numbers(Code::is_of_a_head), [15, 16, 17, 18]);
    }
}
