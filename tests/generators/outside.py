"""Objects made by others: the test files of Debian's python3-pydicom and dcmtk, whole and without their heads; what dcmtk's and
pydicom's writers make of ours; and images drawn by dcmtk and windowed by pydicom."""

import functools
import os
import shutil
import struct
import subprocess

from reference.reading import LONG_VRS

PYDICOM_PACKAGE = "python3-pydicom"
DCMTK_PACKAGE = "dcmtk"
EXPLICIT_LITTLE_ENDIAN = "1.2.840.10008.1.2.1"
ENCAPSULATED_PREFIXES = ("1.2.840.10008.1.2.4.", "1.2.840.10008.1.2.5")


def split_file(content):
    """The transfer syntax and the data set of a DICOM file, or None if it has no file head (PS3.10).

    The head is 128 bytes, "DICM", then the elements of group 0002 in Explicit VR Little Endian.
    """
    if content[128:132] != b"DICM":
        return None
    offset = 132
    transfer_syntax = None
    while len(content) - offset >= 8 and content[offset:offset + 2] == b"\2\0":
        vr = content[offset + 4:offset + 6].decode("latin-1")
        if vr in LONG_VRS:
            length = struct.unpack_from("<I", content, offset + 8)[0]
            value_offset = offset + 12
        else:
            length = struct.unpack_from("<H", content, offset + 6)[0]
            value_offset = offset + 8
        if content[offset + 2:offset + 4] == b"\x10\0":
            transfer_syntax = content[value_offset:value_offset + length].rstrip(b"\0 ").decode("latin-1")
        offset = value_offset + length
    if transfer_syntax is None:
        return None
    return transfer_syntax, content[offset:]


def package_files(package):
    """The files of an installed Debian package, [] if there is none."""
    if not shutil.which("dpkg"):
        return []
    listed = subprocess.run(["dpkg", "-L", package], capture_output=True, text=True)
    return sorted(path for path in listed.stdout.splitlines() if os.path.isfile(path)) if listed.returncode == 0 else []


def pydicom_data_sets():
    """(name, transfer syntax, data set) of each test file whose data set is in Explicit VR Little Endian.

    Those with encapsulated pixels are among them: they are to be refused. So are files without a head, as they stand.
    """
    found = []
    for path in package_files(PYDICOM_PACKAGE):
        if path.endswith((".py", ".pyc")):
            continue
        with open(path, "rb") as file:
            content = file.read()
        parts = split_file(content)
        if parts is None and path.endswith(".dcm"):
            found.append((os.path.basename(path), "no head", content))
        if parts and (parts[0] == EXPLICIT_LITTLE_ENDIAN or parts[0].startswith(ENCAPSULATED_PREFIXES)):
            found.append((os.path.basename(path), parts[0], parts[1]))
    return found


def package_dicom_files():
    """(name, transfer syntax, content) of each DICOM file of the packages, whole; the syntax is None where no head names one."""
    found = []
    for path in package_files(PYDICOM_PACKAGE) + package_files(DCMTK_PACKAGE):
        if path.endswith((".py", ".pyc")):
            continue
        with open(path, "rb") as file:
            content = file.read()
        if content[128:132] == b"DICM" or path.endswith(".dcm"):
            parts = split_file(content)
            found.append((os.path.basename(path), parts[0] if parts else None, content))
    return found


DUMP = """\
(0008,0016) UI =EnhancedXAImageStorage
(0008,0018) UI 1.2.3.4
(0008,0060) CS XA
(0008,1140) SQ
(fffe,e000) -
(0008,1150) UI 1.2.840.10008.5.1.4.1.1.7
(0008,1155) UI 1.2.3.5
(fffe,e00d) -
(fffe,e000) -
(fffe,e00d) -
(fffe,e0dd) -
(0010,0010) PN Doe^Jane
(0028,0010) US 2
(0028,0011) US 3
(0028,6100) SQ
(fffe,e0dd) -
(5200,9229) SQ
(fffe,e000) -
(0028,9132) SQ
(fffe,e000) -
(0028,1050) DS 40\\20
(0028,1051) DS 10\\5.5
(fffe,e00d) -
(fffe,e0dd) -
(fffe,e00d) -
(fffe,e0dd) -
(7fe0,0010) OW 1\\2\\3\\4\\5\\6
"""


def dcmtk_data_sets(folder):
    """(name, data set) of one object written by dcmtk with defined and with undefined lengths; [] without dcmtk."""
    if not (shutil.which("dump2dcm") and shutil.which("dcmconv")):
        return []
    dump = os.path.join(folder, "object.dump")
    source = os.path.join(folder, "object.dcm")
    with open(dump, "w") as file:
        file.write(DUMP)
    subprocess.run(["dump2dcm", "+te", dump, source], check=True, capture_output=True)
    found = []
    for name, switch in (("defined lengths", "+e"), ("undefined lengths", "-e")):
        target = os.path.join(folder, "converted.dcm")
        subprocess.run(["dcmconv", "+te", switch, source, target], check=True, capture_output=True)
        with open(target, "rb") as file:
            transfer_syntax, data_set = split_file(file.read())
        if transfer_syntax == EXPLICIT_LITTLE_ENDIAN:
            found.append((f"dcmtk, {name}", data_set))
    return found


# ---------------------------------------------------------------------------------------------------------------------

PYTHON = "/usr/bin/python3"  # Debian's own, which finds python3-pydicom

# Programs that read a bare data set with pydicom and write it again: each reads, does something with it, and writes.
PYDICOM_READS = """
import sys, pydicom
data_set = pydicom.dcmread(sys.argv[1], force=True)
as_read = True
"""

PYDICOM_WRITES = """
data_set.is_little_endian = True
data_set.is_implicit_VR = False
pydicom.dcmwrite(sys.argv[2], data_set, write_like_original=as_read)
"""

PYDICOM_VISITS = """
for element in data_set.iterall():
    element.value
"""

# Each sequence and item gets a defined length.
PYDICOM_DEFINES = """
def define(data_set):
    for element in data_set:
        if element.VR == "SQ":
            element.is_undefined_length = False
            for item in element.value:
                item.is_undefined_length_sequence_item = False
                define(item)

define(data_set)
"""

# The data set gets a file head.
PYDICOM_HEADS = """
data_set.file_meta = pydicom.dataset.FileMetaDataset()
data_set.file_meta.MediaStorageSOPClassUID = data_set.SOPClassUID
data_set.file_meta.MediaStorageSOPInstanceUID = "1.2.3.4"
data_set.file_meta.TransferSyntaxUID = "1.2.840.10008.1.2.1"
as_read = False
"""


@functools.cache
def has_modules(names):
    """Whether Debian's Python has these modules."""
    return os.path.exists(PYTHON) and subprocess.run([PYTHON, "-c", f"import {names}"], capture_output=True).returncode == 0


def has_pydicom():
    return has_modules("pydicom")


def has_pydicom_windows():
    """pydicom's windowing needs numpy."""
    return has_modules("numpy, pydicom")


def has_dcmtk():
    return bool(shutil.which("dcmconv") and shutil.which("dcm2pnm"))


def bare_file(folder, data_set):
    """The path of a file with a data set and nothing else."""
    path = os.path.join(folder, "bare.xa")
    with open(path, "wb") as file:
        file.write(data_set)
    return path


def pydicom_program(*parts):
    """A command that runs a program of these parts; the paths of its input and output follow."""
    return [PYTHON, "-W", "ignore", "-c", "".join((PYDICOM_READS, *parts, PYDICOM_WRITES))]


def outputs(writers, target, required=False):
    """(writer, content): the target after the commands of each writer. A writer that fails is left out, or an error if `required`."""
    for name, commands in writers:
        if all(subprocess.run(command, check=required, capture_output=True).returncode == 0 for command in commands):
            with open(target, "rb") as file:
                yield name, file.read()


def rewritten(folder, data_set):
    """(writer, data set): the same object as other programs write it."""
    source, target = bare_file(folder, data_set), os.path.join(folder, "rewritten.xa")
    writers = []
    if has_dcmtk():
        writers += [(f"dcmtk, {name}", [["dcmconv", "-f", "-te", "-F", "+te", switch, source, target]])
                    for name, switch in (("defined lengths", "+e"), ("undefined lengths", "-e"))]
    if has_pydicom():
        writers.append(("pydicom", [[*pydicom_program(PYDICOM_VISITS), source, target]]))
    return outputs(writers, target, required=True)


def written_defined(folder, data_set):
    """(writer, data set): the same object as other programs write it with defined lengths throughout. A writer that refuses it is left out."""
    source, target = bare_file(folder, data_set), os.path.join(folder, "defined.xa")
    writers = []
    if has_dcmtk():
        writers.append(("dcmconv +e", [["dcmconv", "-f", "-te", "-F", "+te", "+e", source, target]]))
    if has_pydicom():
        writers.append(("pydicom", [[*pydicom_program(PYDICOM_DEFINES), source, target]]))
    return outputs(writers, target)


def written_files(folder, data_set):
    """(writer, content): files of an object, each with a head, as other programs write them. A writer that refuses the object is left out."""
    source, target = bare_file(folder, data_set), os.path.join(folder, "written.dcm")
    writers = []
    if has_dcmtk():
        writers += [(f"dcmconv, {name}", [["dcmconv", "-f", "-te", "+te", "+F", *switches, source, target]])
                    for name, switches in (("defined lengths", ("+e",)), ("undefined lengths", ("-e",)), ("other group lengths", ("+e", "+g")))]
        writers.append(("dcmodify", [["dcmconv", "-f", "-te", "+te", "+F", source, target],
                                     ["dcmodify", "-nb", "-i", "(0010,0010)=Other^Name", target]]))
    if has_pydicom():
        writers.append(("pydicom", [[*pydicom_program(PYDICOM_VISITS, PYDICOM_HEADS), source, target]]))
    if shutil.which("gdcmconv"):
        writers.append(("gdcm", [["dcmconv", "-f", "-te", "+te", "+F", source, target + ".in"], ["gdcmconv", "--raw", target + ".in", target]]))
    return outputs(writers, target)


# A grey picture of 2 x 2 in JPEG's plainest form would be encapsulated; a BMP becomes plain pixels.
BITMAP = (b"BM" + struct.pack("<IHHI", 54 + 16, 0, 0, 54) + struct.pack("<IiiHHIIiiII", 40, 2, 2, 1, 24, 0, 16, 0, 0, 0, 0)
          + bytes(range(16)))


def other_files(folder):
    """(writer, content): files of objects that are no runs, by programs that make files of pictures."""
    if not shutil.which("img2dcm"):
        return
    source = os.path.join(folder, "picture.bmp")
    target = os.path.join(folder, "picture.dcm")
    with open(source, "wb") as file:
        file.write(BITMAP)
    yield from outputs([("img2dcm", [["img2dcm", "-i", "BMP", source, target]])], target)


def windowed_by_dcmtk(folder, data_set, frame, center, width):
    """The grey levels of a frame as dcm2pnm draws it with a window, row by row."""
    source, target = bare_file(folder, data_set), os.path.join(folder, "drawn.pgm")
    subprocess.run(["dcm2pnm", "-f", "-te", "+F", str(frame), "+Ww", center, width, "+opb", source, target], check=True,
                   capture_output=True)
    with open(target) as file:
        words = " ".join(line for line in file if not line.startswith("#")).split()
    if words[0] != "P2" or words[3] != "255":
        raise ValueError(f"dcm2pnm wrote {words[:4]}")
    return [int(word) for word in words[4:]]


# Draws every frame of each bare file: pydicom reads the elements and the cells and windows them, numpy subtracts the mask. The
# windowed numbers run from 0 to 2^stored - 1; they are scaled to 0..255 and rounded. pydicom does not turn MONOCHROME1 round.
PYDICOM_WINDOWS = """
import sys, numpy, pydicom
from pydicom.dataset import FileMetaDataset
from pydicom.pixel_data_handlers.util import apply_voi_lut

def between(shift, count):
    # Of each row or column: the two mask rows or columns around it, limited to the edge, and the quarters above the first.
    quarters = 4 * numpy.arange(count) - int(4 * shift)
    return (quarters // 4).clip(0, count - 1), (quarters // 4 + 1).clip(0, count - 1), quarters % 4

def moved(mask, shift):
    top, bottom, a = between(shift[0], mask.shape[0])
    left, right, b = between(shift[1], mask.shape[1])
    a = a[:, None]
    return ((4 - a) * (4 - b) * mask[top][:, left] + (4 - a) * b * mask[top][:, right]
            + a * (4 - b) * mask[bottom][:, left] + a * b * mask[bottom][:, right] + 8) // 16

def mask_of(item, frames, number):
    if item.MaskOperation == "TID":
        mask = frames[number - 1 - item.TIDOffset]
    else:
        chosen = [frames[one - 1] for one in item.MaskFrameNumbers]
        mask = (2 * sum(chosen) + len(chosen)) // (2 * len(chosen))
    return moved(mask, item.MaskSubPixelShift)

def holds(item, number):
    return item.ApplicableFrameRange[0] <= number <= item.ApplicableFrameRange[1]

for path in sys.argv[1:]:
    data_set = pydicom.dcmread(path, force=True)
    data_set.file_meta = FileMetaDataset()
    data_set.file_meta.TransferSyntaxUID = "1.2.840.10008.1.2.1"
    frames = data_set.pixel_array.astype(numpy.int64)
    with open(path + ".cells", "wb") as file:
        for number, group in enumerate(data_set.PerFrameFunctionalGroupsSequence, start=1):
            cells = frames[number - 1]
            for item in data_set.MaskSubtractionSequence:
                if holds(item, number):
                    cells = cells - mask_of(item, frames, number) + 2 ** (data_set.BitsStored - 1)
            window = group.FrameVOILUTSequence[0]
            for name in ("PhotometricInterpretation", "BitsStored", "PixelRepresentation"):
                setattr(window, name, getattr(data_set, name))
            levels = numpy.floor(apply_voi_lut(cells, window) * 255 / (2 ** data_set.BitsStored - 1) + 0.5)
            if data_set.PhotometricInterpretation == "MONOCHROME1":
                levels = 255 - levels
            file.write(levels.astype(numpy.uint8).tobytes())
"""


def windowed_by_pydicom(folder, data_sets):
    """The grey levels of all frames, one after the other, of each of some data sets, as pydicom windows them."""
    paths = [os.path.join(folder, f"windowed-{number}.xa") for number in range(len(data_sets))]
    for path, data_set in zip(paths, data_sets):
        with open(path, "wb") as file:
            file.write(data_set)
    subprocess.run([PYTHON, "-W", "ignore", "-c", PYDICOM_WINDOWS, *paths], check=True, capture_output=True)
    for path in paths:
        with open(path + ".cells", "rb") as file:
            yield file.read()
