//! Where to look for what broke a rule: for each rule, in the order of the sentences in `sentences.rs`, the elements that its sentence names.
//! This is only for print: no rule is judged here, and what is found is printed whether it is good or bad.

/// Where an element is.
#[derive(Clone, Copy)]
pub enum Place {
    Root,
    /// The item of the shared functional groups.
    Shared,
    /// The frame's own item of the per-frame functional groups.
    Own,
    /// The frame's own item if it has the element, else the shared one.
    Group,
    /// The item that `Each` is at.
    Here,
}

pub enum Look {
    /// The value, or that the element is absent.
    Value(Place, u32),
    /// The value, if the element is there.
    Given(Place, u32),
    /// A value at the root that counts something.
    Count(u32, &'static str),
    /// How many items a sequence has.
    Items(Place, u32),
    /// How many bytes a value has.
    Bytes(Place, u32),
    /// The same for each item of a sequence.
    Each(Place, u32, &'static [Look]),
    /// The sequences that both the shared item and the frame's own item have.
    Both,
    /// The lowest frame that has a group.
    First(u32),
    /// The product of numbers at the root, each with what it counts; the last one counts bits, and the product is printed in bytes.
    Product(&'static [(u32, &'static str)]),
}

use crate::names::tags::*;
use crate::sentences::COUNT;
use Look::{Both, Bytes, Count, Each, First, Given, Items, Product, Value};
use Place::{Group, Here, Own, Root, Shared};

/// Rule 1 first.
pub const LOOKS: [&[Look]; COUNT] = [
    &[Value(Root, SOP_CLASS_UID)],
    &[Value(Root, MODALITY), Value(Root, SOP_CLASS_UID)],
    &[Value(Root, IMAGE_TYPE)],
    &[Value(Root, PLANES_IN_ACQUISITION)],
    &[Value(Root, PLANES_IN_ACQUISITION), Value(Root, IMAGE_TYPE)],
    &[Value(Root, PLANE_IDENTIFICATION), Value(Root, PLANES_IN_ACQUISITION)],
    &[Value(Root, PLANE_IDENTIFICATION), Value(Root, PLANES_IN_ACQUISITION)],
    &[Value(Root, ACQUISITION_DATETIME)],
    &[Value(Root, SAMPLES_PER_PIXEL)],
    &[Value(Root, PHOTOMETRIC_INTERPRETATION)],
    &[Value(Root, ROWS), Value(Root, COLUMNS)],
    &[Value(Root, BITS_ALLOCATED), Value(Root, BITS_STORED)],
    &[Value(Root, HIGH_BIT), Value(Root, BITS_STORED)],
    &[Value(Root, PIXEL_REPRESENTATION)],
    &[Value(Root, NUMBER_OF_FRAMES)],
    &[Value(Root, CONTENT_QUALIFICATION)],
    &[Value(Root, BURNED_IN_ANNOTATION)],
    &[Value(Root, LOSSY_IMAGE_COMPRESSION)],
    &[
        Value(Root, LOSSY_IMAGE_COMPRESSION),
        Value(Root, LOSSY_IMAGE_COMPRESSION_RATIO),
        Value(Root, LOSSY_IMAGE_COMPRESSION_METHOD),
    ],
    &[Items(Root, REFERENCED_OTHER_PLANE_SEQUENCE), Value(Root, PLANES_IN_ACQUISITION)],
    &[Value(Root, PRESENTATION_LUT_SHAPE), Value(Root, PHOTOMETRIC_INTERPRETATION)],
    &[Value(Root, KVP), Value(Root, RADIATION_MODE), Value(Root, RADIATION_SETTING)],
    &[Value(Root, EXPOSURE_IN_MAS), Value(Root, EXPOSURE_TIME_IN_MS), Value(Root, X_RAY_TUBE_CURRENT_IN_MA)],
    &[Value(Root, POSITIONER_TYPE)],
    &[Items(Root, SHARED_FUNCTIONAL_GROUPS_SEQUENCE)],
    &[Items(Root, PER_FRAME_FUNCTIONAL_GROUPS_SEQUENCE), Count(NUMBER_OF_FRAMES, "frame")],
    &[Both],
    &[Items(Shared, FRAME_CONTENT_SEQUENCE), Items(Own, FRAME_CONTENT_SEQUENCE)],
    &[Items(Group, XA_XRF_FRAME_CHARACTERISTICS_SEQUENCE)],
    &[
        Items(Group, FRAME_VOI_LUT_SEQUENCE),
        Each(
            Group,
            FRAME_VOI_LUT_SEQUENCE,
            &[Value(Here, WINDOW_CENTER), Value(Here, WINDOW_WIDTH), Given(Here, VOI_LUT_FUNCTION)],
        ),
    ],
    &[Items(Root, MASK_SUBTRACTION_SEQUENCE), Each(Root, MASK_SUBTRACTION_SEQUENCE, &[Value(Here, MASK_OPERATION)])],
    &[Each(Root, MASK_SUBTRACTION_SEQUENCE, &[Given(Here, APPLICABLE_FRAME_RANGE)]), Count(NUMBER_OF_FRAMES, "frame")],
    &[
        Each(
            Root,
            MASK_SUBTRACTION_SEQUENCE,
            &[Value(Here, MASK_OPERATION), Given(Here, MASK_FRAME_NUMBERS), Given(Here, CONTRAST_FRAME_AVERAGING)],
        ),
        Count(NUMBER_OF_FRAMES, "frame"),
    ],
    &[Each(Root, MASK_SUBTRACTION_SEQUENCE, &[Value(Here, MASK_OPERATION), Given(Here, TID_OFFSET)])],
    &[Each(Root, MASK_SUBTRACTION_SEQUENCE, &[Given(Here, MASK_SUB_PIXEL_SHIFT)])],
    &[First(FRAME_PIXEL_SHIFT_SEQUENCE), Each(Root, MASK_SUBTRACTION_SEQUENCE, &[Value(Here, SUBTRACTION_ITEM_ID)])],
    &[
        Items(Group, FRAME_PIXEL_SHIFT_SEQUENCE),
        Each(Group, FRAME_PIXEL_SHIFT_SEQUENCE, &[Value(Here, SUBTRACTION_ITEM_ID), Value(Here, MASK_SUB_PIXEL_SHIFT)]),
    ],
    &[
        Bytes(Root, PIXEL_DATA),
        Product(&[(NUMBER_OF_FRAMES, "frame"), (ROWS, "row"), (COLUMNS, "column"), (BITS_ALLOCATED, "bit")]),
    ],
    &[
        Items(Group, FRAME_PIXEL_DATA_PROPERTIES_SEQUENCE),
        Each(Group, FRAME_PIXEL_DATA_PROPERTIES_SEQUENCE, &[Value(Here, PIXEL_INTENSITY_RELATIONSHIP)]),
        Items(Group, PIXEL_INTENSITY_RELATIONSHIP_LUT_SEQUENCE),
        Each(
            Group,
            PIXEL_INTENSITY_RELATIONSHIP_LUT_SEQUENCE,
            &[Value(Here, LUT_FUNCTION), Value(Here, LUT_DESCRIPTOR), Bytes(Here, LUT_DATA)],
        ),
    ],
];
