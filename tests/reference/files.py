"""Files: document 02, Q-1. The head is tested, then the data set after it goes to the calls of document 01."""

from . import drawing, reading, rules
from .answers import BAD_HEAD, NO_MARK, OTHER_TRANSFER_SYNTAX, ROW_BUFFER_TOO_SMALL, SOP_CLASSES_DIFFER, Answer, Outcome

HEAD_START = 132  # after 128 bytes of anything and "DICM"
HEAD_GROUP = 0x0002
GROUP_LENGTH = 0x00020000
MEDIA_STORAGE_SOP_CLASS_UID = 0x00020002
TRANSFER_SYNTAX_UID = 0x00020010
SOP_CLASS_UID = 0x00080016
EXPLICIT_VR_LITTLE_ENDIAN = b"1.2.840.10008.1.2.1"


class HeadRefusal(Exception):
    """One of the codes 15 to 17."""

    def __init__(self, code):
        super().__init__(code)
        self.code = code


def single_uid(data, elements, tag):
    """The UID of an element that is there, UI, not empty and single, without trailing zero bytes; else None."""
    for element in elements:
        if element.tag == tag and element.vr == "UI" and element.value_length > 0:
            value = bytes(data[element.value_offset:element.value_offset + element.value_length])
            if b"\\" not in value:
                return value.rstrip(b"\0")
    return None


def head_elements(file):
    """The elements of the head and where it ends, or HeadRefusal with 15 or 16."""
    if bytes(file[128:HEAD_START]) != b"DICM":
        raise HeadRefusal(NO_MARK)
    # (0002,0000) UL, length 4, value: twelve bytes, and the first.
    behind = HEAD_START + 12
    if (len(file) < behind or reading.tag_at(file, HEAD_START) != GROUP_LENGTH
            or bytes(file[136:138]) != b"UL" or reading.number(file, 138, 2) != 4):
        raise HeadRefusal(BAD_HEAD)
    end = behind + reading.number(file, 140, 4)
    if end > len(file):
        raise HeadRefusal(BAD_HEAD)
    try:
        elements, _ = reading.read_elements(file, HEAD_START, end, 0, False)
    except reading.Refusal:
        raise HeadRefusal(BAD_HEAD) from None
    if any(element.tag >> 16 != HEAD_GROUP for element in elements):
        raise HeadRefusal(BAD_HEAD)
    return elements, end


def read_head(file):
    """Where the data set starts, and the SOP class that the head names; or HeadRefusal."""
    elements, end = head_elements(file)
    transfer_syntax = single_uid(file, elements, TRANSFER_SYNTAX_UID)
    sop_class = single_uid(file, elements, MEDIA_STORAGE_SOP_CLASS_UID)
    if transfer_syntax is None or sop_class is None:
        raise HeadRefusal(BAD_HEAD)
    if transfer_syntax != EXPLICIT_VR_LITTLE_ENDIAN:
        raise HeadRefusal(OTHER_TRANSFER_SYNTAX)
    return end, sop_class


def data_set(file):
    """The code and where the data set starts: 0 and its offset, or 15 to 17 and 0."""
    try:
        return 0, read_head(file)[0]
    except HeadRefusal as refusal:
        return refusal.code, 0


def inside(file, row_buffer_length, call):
    """The outcome of a call on a file; `call` takes the data set. 18 comes between 8 and 9, and the rows are written as with 9."""
    try:
        start, sop_class = read_head(file)
    except HeadRefusal as refusal:
        return Outcome(Answer(refusal.code))
    data = file[start:]
    read = reading.read(data, row_buffer_length)
    if 1 <= read.answer.code <= ROW_BUFFER_TOO_SMALL:
        return read
    if single_uid(data, reading.read_data_set(data), SOP_CLASS_UID) != sop_class:
        return Outcome(Answer(SOP_CLASSES_DIFFER), rows=read.rows)
    return call(data)


def read_file(file, row_buffer_length):
    return inside(file, row_buffer_length, lambda data: reading.read(data, row_buffer_length))


def judge_file(file, row_buffer_length):
    return inside(file, row_buffer_length, lambda data: rules.judge(data, row_buffer_length))


def show_file(file, frame, row_buffer_length, image_buffer_length):
    return inside(file, row_buffer_length, lambda data: drawing.show(data, frame, row_buffer_length, image_buffer_length))
