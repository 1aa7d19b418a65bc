"""Compares xa_data_set, xa_read_file, xa_judge_file and xa_show_file with the reference."""

import itertools
import mmap
import random
import struct

from generators import enhanced_xa as xa
from generators import objects, outside
from reference import attributes as tags
from reference import files, reading

from .common import DifferenceFound, run_as_program, zeros

LARGE = 1 << 40
CALLS = ("xa_data_set", "xa_read_file", "xa_judge_file", "xa_show_file")

GROUP_LENGTH = 0x00020000
VERSION = 0x00020001
SOP_CLASS = 0x00020002
INSTANCE = 0x00020003
SYNTAX = 0x00020010
IMPLEMENTATION = 0x00020012
EXPLICIT = b"1.2.840.10008.1.2.1"
OTHER_SYNTAXES = (b"1.2.840.10008.1.2", b"1.2.840.10008.1.2.2", b"1.2.840.10008.1.2.1.99", b"1.2.840.10008.1.2.4.50",
                  b"1.2.840.10008.1.2.5", b"1.2.840.10008.1.2.1.1", b"1.2.840.10008.1.2.1 ", b" 1.2.840.10008.1.2.1",
                  b"1.2.840.10008.1.2.1\0001", b"\0001.2.840.10008.1.2.1", b"1.2.840.10008.1.2.10", b"\0\0", b"  ")
CLASSES = {"XA": b"1.2.840.10008.5.1.4.1.1.12.1.1", "XRF": b"1.2.840.10008.5.1.4.1.1.12.2.1"}


def padded(uid):
    return uid + b"\0" * (len(uid) % 2)


def ui(tag, uid):
    return objects.element(tag, "UI", padded(uid))


def elements_of(sop_class, syntax=EXPLICIT):
    """The elements of an ordinary head but the group length, in order, by their tags."""
    return {
        VERSION: objects.element(VERSION, "OB", b"\0\1"),
        SOP_CLASS: ui(SOP_CLASS, sop_class),
        INSTANCE: ui(INSTANCE, b"1.2.3.4"),
        SYNTAX: ui(SYNTAX, syntax),
        IMPLEMENTATION: ui(IMPLEMENTATION, b"1.2.3.5.6"),
    }


def head(elements, length=None):
    """A head of some elements, with its group length or another in its place."""
    content = b"".join(elements)
    return objects.element(GROUP_LENGTH, "UL", struct.pack("<I", len(content) if length is None else length)) + content


def file_of(elements, data, preamble=bytes(128), mark=b"DICM", length=None):
    return preamble + mark + head(elements, length) + data


class Sample:
    """An accepted object of few bytes, and its ordinary head."""

    def __init__(self, rng, **fixed):
        self.shape = xa.random_shape(rng, frames=rng.choice((1, 2, 3)), rows=rng.choice((1, 2, 3)), columns=rng.choice((1, 2, 3)), **fixed)
        self.model = xa.build(rng, self.shape)
        self.data = xa.encode_at_random(rng, self.model)
        self.sop_class = CLASSES[self.shape.sop_class]
        self.elements = elements_of(self.sop_class)
        self.file = file_of(self.elements.values(), self.data)

    def with_elements(self, **changed):
        """The file with some of the head's elements changed, by the names of their tags; None leaves one out."""
        elements = dict(self.elements)
        for name, element in changed.items():
            elements[globals()[name]] = element
        return file_of([element for element in elements.values() if element is not None], self.data)


# ---------------------------------------------------------------------------------------------------------------------
# One file in all four calls


def rooms(rng, file):
    """A row buffer and an image buffer: enough, exactly enough, one number or byte too few, none."""
    code, start = files.data_set(file)
    numbers = len(reading.read(file[start:], LARGE).rows) if code == 0 else 70
    return (rng.choice((numbers, numbers, numbers + 5, max(0, numbers - 1), 0)), rng.choice((0, 1, 8, 9, 64, 64, 64)))


def check_file(comparison, name, file, row_length, frame, image_length):
    """Compares the four calls; answers the codes of read, judge and show."""
    codes = []

    def note(outcome):
        codes.append(outcome.answer.code)
        comparison.note(("code", outcome.answer.code))
        return outcome

    def part(data):
        found, fault = comparison.library.data_set(data)
        return fault or (None if found == files.data_set(data) else f"{found}, expected {files.data_set(data)}")

    comparison.check(f"data set of {name}", file, part)
    for call, reference in (("xa_read_file", files.read_file), ("xa_judge_file", files.judge_file)):
        note(reference(file, row_length))
        comparison.check(f"{call} of {name}", file, lambda data, call=call, reference=reference: comparison.library.call_with_rows(
            call, data, row_length).difference(reference(data, row_length)))
    note(files.show_file(file, frame, row_length, image_length))
    comparison.check(f"xa_show_file of {name}, frame {frame}", file, lambda data: comparison.library.show(
        data, frame, row_length, image_length, "xa_show_file").difference(files.show_file(data, frame, row_length, image_length)))
    return tuple(codes)


def check(comparison, rng, name, file):
    return check_file(comparison, name, file, *rooms(rng, file)[:1], rng.choice((0, 1, 1, 1, 2, 99)), rng.choice((0, 8, 64, 64)))


def check_amply(comparison, name, file):
    """With room for everything, and frame 1."""
    return check_file(comparison, name, file, len(file), 1, len(file))


def meant(name, codes, *expected):
    """What a case is worked out to give: the codes of read, judge and show, or one code for all three."""
    if codes != (expected if len(expected) == 3 else expected * 3):
        raise DifferenceFound(f"the comparison itself is at fault: {name} gives {codes}, meant {expected}")


# ---------------------------------------------------------------------------------------------------------------------
# Heads damaged in every field


def compare_bytes(comparison, rng, sample):
    """Every byte of the head changed, and the file cut at every length up to a few bytes of the data set."""
    end = files.data_set(sample.file)[1]
    for at in range(end):
        for change in {1, 128, rng.randrange(1, 256)} if at >= 128 else {rng.randrange(1, 256)}:
            changed = bytearray(sample.file)
            changed[at] ^= change
            check(comparison, rng, f"byte {at} changed", bytes(changed))
    for length in range(end + 20):
        check(comparison, rng, f"cut at {length}", sample.file[:length])


def compare_group_lengths(comparison, rng, sample):
    """Each group length around each element's end, and large ones; then the element itself in other forms."""
    parts = list(sample.elements.values())
    ends = {0}
    for part in parts:
        ends.add(max(ends) + len(part))
    whole = max(ends)
    past = whole + len(sample.data)
    for end in sorted(ends | {past}):
        for length in range(max(0, end - 2), end + 3):
            check(comparison, rng, f"group length {length}", file_of(parts, sample.data, length=length))
    for length in (0x7FFFFFFF, 0x80000000, 0xFFFFFFFE, 0xFFFFFFFF):
        meant("group length", check_amply(comparison, f"group length {length}", file_of(parts, sample.data, length=length)), 16)
    meant("group length past the file", check_amply(comparison, "past", file_of(parts, sample.data, length=past + 1)), 16)
    behind = b"".join(parts) + sample.data
    size = struct.pack("<I", whole)
    for name, first in (
            ("left out", b""), ("VR US", objects.element(GROUP_LENGTH, "US", size[:2])), ("VR SL", objects.element(GROUP_LENGTH, "SL", size)),
            ("VR ul", objects.element(GROUP_LENGTH, "ul", size)), ("VR OB", objects.element(GROUP_LENGTH, "OB", size)),
            ("two bytes", objects.element(GROUP_LENGTH, "UL", size[:2])), ("eight bytes", objects.element(GROUP_LENGTH, "UL", size + bytes(4))),
            ("empty", objects.element(GROUP_LENGTH, "UL")), ("odd", objects.element(GROUP_LENGTH, "UL", size[:3])),
            ("of another tag", objects.element(0x00020001, "UL", size)), ("of group 3", objects.element(0x00030000, "UL", size))):
        meant(name, check_amply(comparison, f"group length {name}", bytes(128) + b"DICM" + first + behind), 16)
    twice = objects.element(GROUP_LENGTH, "UL", size)
    meant("twice", check_amply(comparison, "group length twice", file_of([twice] + parts, sample.data)), 16)
    # After a group length that is too short, the rest of the head belongs to the data set, by the paper's letter.
    short = sample.with_elements(IMPLEMENTATION=None)
    start = files.data_set(short)[1]
    moved = bytearray(short[:start] + sample.elements[IMPLEMENTATION] + short[start:])
    meant("an element left to the data set", check_amply(comparison, "left", bytes(moved)), 0)


def compare_elements(comparison, rng, sample):
    """Each element left out, twice, in each other place; of each other VR; longer, shorter and empty; other groups and sequences."""
    parts = list(sample.elements.values())
    for number, part in enumerate(parts):
        check(comparison, rng, f"element {number} left out", file_of(parts[:number] + parts[number + 1:], sample.data))
        check(comparison, rng, f"element {number} twice", file_of(parts[:number] + [part] + parts[number:], sample.data))
        for other in range(len(parts)):
            moved = parts[:number] + parts[number + 1:]
            moved.insert(other, part)
            check(comparison, rng, f"element {number} moved to {other}", file_of(moved, sample.data))
    for tag, uid in ((SOP_CLASS, sample.sop_class), (SYNTAX, EXPLICIT)):
        name = "SOP_CLASS" if tag == SOP_CLASS else "SYNTAX"
        for vr in objects.SHORT_HEADER_VRS + objects.LONG_HEADER_VRS + ("ui", "XX", "\0\0"):
            value = b"" if vr == "SQ" else padded(uid)
            file = sample.with_elements(**{name: objects.element(tag, vr, value)})
            meant(f"{name} as {vr}", check_amply(comparison, f"{name} as {vr}", file), 0 if vr == "UI" else 16)
        for value, code in ((b"", 16), (uid + b"\\" + uid + b"\0", 16), (padded(uid + b"\\"), 16), (padded(b"\\" + uid), 16), (b"\\\\", 16),
                            (padded(uid) + bytes(2), 0), (padded(uid) + bytes(20), 0)):
            file = sample.with_elements(**{name: objects.element(tag, "UI", value)})
            meant(f"{name} {value}", check_amply(comparison, f"{name} {value}", file), code)
    for syntax in OTHER_SYNTAXES:
        meant(f"syntax {syntax}", check_amply(comparison, f"syntax {syntax}", sample.with_elements(SYNTAX=ui(SYNTAX, syntax))), 17)
    for tag in (0x00010010, 0x00030000, 0x00080016, 0x02000002, 0x7FE00010):
        other = objects.element(tag, "UI", b"1\0")
        place = [other] + parts if tag < GROUP_LENGTH else parts + [other]
        meant(f"{tag:08X}", check_amply(comparison, f"{tag:08X} in the head", file_of(place, sample.data)), 16)


def compare_sequences(comparison, rng, sample, count):
    """Sequences in the head, of both lengths, good and broken; their content is free."""
    parts = list(sample.elements.values())
    inner = objects.element(0x00080016, "UI", b"1\0") + objects.element(0x7FE00010, "OW", b"\0\0")
    for depth in range(1, 11):
        for undefined in (False, True):
            content = inner
            for _ in range(depth - 1):
                content = objects.sequence(0x00020002, objects.item(content, undefined), undefined)
            sequence = objects.sequence(0x0002FFFF, objects.item(content, undefined), undefined)
            name = f"sequences {depth} deep"
            meant(name, check_amply(comparison, name, file_of(parts + [sequence], sample.data)), 0 if depth <= 8 else 16)
            for length in range(1, len(sequence)):
                check(comparison, rng, f"{name}, cut", file_of(parts + [sequence[:length]], sample.data))
    for number in range(count):
        model = {(tag & 0xFFFF) | 0x00020000: element for tag, element in objects.random_model(rng).items() if tag & 0xFFFF > 0x12}
        encoded = objects.encode(model, lambda: rng.random() < 0.5)
        file = file_of(parts + [encoded], sample.data)
        meant("a random head", check_amply(comparison, f"random head {number}", file), 0)
        broken = bytearray(encoded)
        if broken:
            broken[rng.randrange(len(broken))] ^= 1 << rng.randrange(8)
            check(comparison, rng, f"random head {number} broken", file_of(parts + [bytes(broken)], sample.data))


# ---------------------------------------------------------------------------------------------------------------------
# 18


def compare_classes(comparison, rng):
    """The SOP class in the head and in the data set, each in many forms."""
    uid, other = CLASSES["XA"], CLASSES["XRF"]
    values = {"same": padded(uid), "more zero bytes": padded(uid) + bytes(4), "other": padded(other), "a letter less": padded(uid[:-1]),
              "a letter more": padded(uid + b"1"), "space behind": uid + b" " * (2 - len(uid) % 2), "small": b"1\0"}
    sample = Sample(rng, sop_class="XA")
    for (head_name, in_head), (name, in_data) in itertools.product(values.items(), values.items()):
        model = dict(sample.model)
        model[tags.SOP_CLASS_UID] = ("UI", in_data)
        elements = dict(sample.elements)
        elements[SOP_CLASS] = objects.element(SOP_CLASS, "UI", in_head)
        codes = check_amply(comparison, f"class {head_name}, {name}", file_of(elements.values(), objects.encode(model)))
        if in_head.rstrip(b"\0") != in_data.rstrip(b"\0"):
            meant(f"{head_name}, {name}", codes, 18)
        elif in_data.rstrip(b"\0") == uid:
            meant(f"{head_name}, {name}", codes, 0)
        else:
            meant(f"{head_name}, {name}", codes, 0, 9, 9)
    for name, element in (("absent", None), ("empty", ("UI", b"")), ("zero bytes", ("UI", b"\0\0")), ("two", ("UI", uid + b"\\" + uid + b"\0")),
                          ("backslash", ("UI", padded(uid + b"\\"))), ("LO", ("LO", padded(uid))), ("sequence", ("SQ", [{}])),
                          ("no items", ("SQ", []))):
        model = dict(sample.model)
        model.pop(tags.SOP_CLASS_UID)
        if element:
            model[tags.SOP_CLASS_UID] = element
        for in_head in (uid, b"\0\0"):
            elements = dict(sample.elements)
            elements[SOP_CLASS] = objects.element(SOP_CLASS, "UI", padded(in_head))
            codes = check_amply(comparison, f"class {name}", file_of(elements.values(), objects.encode(model)))
            if name == "zero bytes" and in_head == b"\0\0":
                meant(name, codes, 0, 9, 9)
            else:
                meant(name, codes, 18)
    meant("no data set", check_amply(comparison, "an empty data set", file_of(sample.elements.values(), b"")), 18)


# ---------------------------------------------------------------------------------------------------------------------
# The order of the codes

READING_FAULTS = {
    1: lambda data: data[:-1],
    2: lambda data: data + objects.element(0x00080016, "UI", b"1\0"),
    3: lambda data: data + objects.element(0xFFFF0000, "XX", b""),
    4: lambda data: data + objects.element(0xFFFF0000, "LT", b"a"),
    5: lambda data: data + objects.item(b""),
    6: lambda data: data + objects.nest(random.Random(0), b"", 9, False).replace(objects.tag_bytes(0x52009229), objects.tag_bytes(0xFFFF0000), 1),
}


def compare_orders(comparison, rng):
    """Every set of faults: the first in the paper's order decides, of those that a call can answer."""
    order = (15, 16, 17, "reading", 8, 18, 9, 10, 11)
    for number, faults in enumerate(itertools.chain.from_iterable(itertools.combinations(order, size) for size in range(len(order) + 1))):
        sample = Sample(rng, extras=False)
        model = dict(sample.model)
        if 9 in faults:
            model[tags.MODALITY] = xa.text("CS", "CT")
        data = objects.encode(model)
        kind = 1 + number % 6
        if "reading" in faults:
            data = READING_FAULTS[kind](data)
        elements = dict(sample.elements)
        if 18 in faults:
            elements[SOP_CLASS] = ui(SOP_CLASS, b"1.2.3")
        if 17 in faults:
            elements[SYNTAX] = ui(SYNTAX, rng.choice(OTHER_SYNTAXES))
        if 16 in faults:
            elements[0x0002FFFF] = objects.element(0x0008FFFF, "LO", b"")
        file = file_of(elements.values(), data, mark=b"DICN" if 15 in faults else b"DICM")
        numbers = len(reading.read(objects.encode(model), LARGE).rows)
        cells = sample.shape.rows * sample.shape.columns
        codes = check_file(comparison, f"faults {faults}", file, numbers - (8 in faults), 0 if 10 in faults else 1, cells - (11 in faults))
        named = [kind if fault == "reading" else fault for fault in faults]
        meant(f"faults {faults}", codes, *(next((code for code in named if code in possible), 0) for possible in (
            {15, 16, 17, 1, 2, 3, 4, 5, 6, 8, 18}, {15, 16, 17, 1, 2, 3, 4, 5, 6, 8, 18, 9}, set(range(19)))))


def compare_good(comparison, rng, count):
    """Good files with any preamble, all frames and many buffers; and files with random damage after the head."""
    for number in range(count):
        sample = Sample(rng)
        preamble = rng.choice((bytes(128), rng.randbytes(128), b"DICM" * 32, sample.data[:128].ljust(128, b"\0")))
        file = file_of(sample.elements.values(), sample.data, preamble)
        for frame in range(sample.shape.frames + 2):
            check_file(comparison, f"good file {number}", file, rooms(rng, file)[0], frame, rng.choice((0, 3, 9, 100)))
        codes = check_amply(comparison, f"good file {number}", file)
        meant("a good file", codes, 0)
        damaged = bytearray(file)
        for _ in range(rng.choice((1, 2, 4))):
            damaged[rng.randrange(len(damaged))] = rng.randrange(256)
        check(comparison, rng, f"damaged file {number}", bytes(damaged))


# ---------------------------------------------------------------------------------------------------------------------
# Sizes


def compare_sizes(comparison):
    """7 counts the data set and not the file; a head has no limit, and may reach past 4 GiB."""
    sample = Sample(random.Random(1))
    elements = list(sample.elements.values())
    for size, code in ((reading.MAXIMUM_SIZE, 18), (reading.MAXIMUM_SIZE + 1, 7)):
        front = file_of(elements, objects.element_header(0x00080008, "OB", reading.MAXIMUM_SIZE - 12))
        start = files.data_set(front)[1]
        memory = zeros(start + size)
        memory[:len(front)] = front
        outcome = files.read_file(memory, 70)
        comparison.must_equal("size limit: the reference", outcome.answer.code, code)
        for call in CALLS[1:]:
            comparison.must_be_right(f"{call}, a data set of {size} bytes", comparison.library.call_on_mapping(call, memory, 70).difference(outcome))
        comparison.note(("code", code))
    for whole in (reading.MAXIMUM_SIZE + 4, 0xFFFFFFF0):
        content = b"".join(elements)
        value = whole - len(content) - 12
        front = bytes(128) + b"DICM" + head([content, objects.element_header(0x0002FFFE, "OB", value)], whole)
        start = 144 + whole
        memory = mmap.mmap(-1, start + len(sample.data), flags=mmap.MAP_PRIVATE | mmap.MAP_ANONYMOUS | getattr(mmap, "MAP_NORESERVE", 0x4000))
        memory[:len(front)] = front
        memory[start:] = sample.data
        numbers = len(reading.read(sample.data, LARGE).rows)
        comparison.must_equal("a large head: the reference", files.data_set(memory), (0, start))
        for call, outcome in (("xa_read_file", files.read_file(memory, numbers)), ("xa_judge_file", files.judge_file(memory, numbers)),
                              ("xa_show_file", files.show_file(memory, 1, numbers, 16))):
            comparison.must_equal("a large head: the reference", outcome.answer.code, 0)
            comparison.must_be_right(f"{call}, a head of {whole} bytes", comparison.library.call_on_mapping(call, memory, numbers).difference(outcome))
        memory.close()


# ---------------------------------------------------------------------------------------------------------------------
# Files made by others


def compare_outside(comparison, rng, required):
    """Every file of the packages, whole, with its head; and accepted objects as others write them into files."""
    found = outside.package_dicom_files()
    if required and not found:
        raise DifferenceFound("no outside files: python3-pydicom's test files are not installed")
    plain = 0
    for name, syntax, content in found:
        codes = check_amply(comparison, name, content)
        plain += syntax == outside.EXPLICIT_LITTLE_ENDIAN
        if syntax not in (None, outside.EXPLICIT_LITTLE_ENDIAN) and codes[0] not in (16, 17):
            raise DifferenceFound(f"{name} is in {syntax} and answers {codes}")
    written = set()
    for _ in range(3):
        sample = Sample(rng)
        for writer, content in outside.written_files(comparison.folder, sample.data):
            meant(f"a file by {writer}", check_amply(comparison, f"a file by {writer}", content), 0)
            written.add(writer)
    for writer, content in outside.other_files(comparison.folder):
        meant(f"a file by {writer}", check_amply(comparison, f"a file by {writer}", content), 0, 9, 9)
        written.add(writer)
    if required and not {"dcmconv", "dcmodify", "img2dcm", "pydicom"} <= {writer.split(",")[0] for writer in written}:
        raise DifferenceFound(f"no files by some writers, only by {sorted(written)}")
    return f"{len(found)} outside files, {plain} of them in Explicit VR Little Endian; files by {len(written)} writers"


def run(comparison, arguments):
    rng = random.Random(comparison.seed)
    sample = Sample(rng, extras=False)
    compare_bytes(comparison, rng, sample)
    compare_group_lengths(comparison, rng, sample)
    compare_elements(comparison, rng, sample)
    compare_sequences(comparison, rng, sample, max(5, comparison.count // 10))
    compare_classes(comparison, rng)
    compare_orders(comparison, rng)
    compare_good(comparison, rng, comparison.count)
    compare_sizes(comparison)
    line = compare_outside(comparison, rng, arguments.require_outside)
    comparison.insist([("code", code) for code in (*range(12), 15, 16, 17, 18)])
    return line


if __name__ == "__main__":
    run_as_program("files", run)
