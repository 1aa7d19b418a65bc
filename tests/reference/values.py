"""Values: how an element's bytes are taken as words or numbers. Document 01, opening of "The rule list".

Every read answers None where the value is not there in the form asked for. Rules and drawing steps both read so.
"""

import math
import re
import struct
from fractions import Fraction


class Level:
    """The root of a data set, or an item: its elements, and the bytes that hold their values."""

    def __init__(self, data, elements):
        self.data = data
        self.elements = elements
        self.known_items = {}  # items that were asked for before: a run has many frames, each asks for its item

    def find(self, tag):
        """The element with this tag, of any VR and length ("present"), or None ("absent")."""
        for element in self.elements:
            if element.tag == tag:
                return element
        return None

    def present(self, tag):
        return self.find(tag) is not None

    def has(self, tag, vr):
        """"Has": present, with the VR given, length not 0."""
        element = self.find(tag)
        return element is not None and element.vr == vr and element.value_length != 0

    def value(self, tag, vr):
        """The bytes of the value if the data set has the element with this VR, else None."""
        if not self.has(tag, vr):
            return None
        element = self.find(tag)
        return bytes(self.data[element.value_offset:element.value_offset + element.value_length])

    def items(self, tag):
        """The items of a sequence; None if it is absent or of another VR than SQ."""
        if tag not in self.known_items:
            element = self.find(tag)
            self.known_items[tag] = None if element is None else items_of(self.data, element)
        return self.known_items[tag]

    def texts(self, tag, vr):
        """The values of a CS, IS, DS or UI element, parted at backslashes and trimmed."""
        value = self.value(tag, vr)
        return None if value is None else [trimmed(part, vr) for part in value.split(b"\\")]

    def text(self, tag, vr):
        """The only value of a CS, IS, DS or UI element; None if there are several."""
        return only(self.texts(tag, vr))

    def unsigned_shorts(self, tag):
        """The values of a US element."""
        value = self.value(tag, "US")
        return None if value is None else list(struct.unpack(f"<{len(value) // 2}H", value))

    def unsigned_short(self, tag):
        return only(self.unsigned_shorts(tag))

    def signed_short(self, tag):
        """The only value of an SS element."""
        value = self.value(tag, "SS")
        return None if value is None or len(value) != 2 else struct.unpack("<h", value)[0]

    def float_pair(self, tag):
        """The two values of an FL element if there are just two."""
        value = self.value(tag, "FL")
        return None if value is None or len(value) != 8 else struct.unpack("<ff", value)

    def quarter_pair(self, tag):
        """The two values of an FL element if there are just two and both are whole multiples of 1/4."""
        return whole_quarters(self.float_pair(tag))


def items_of(data, element):
    """The items of an element as levels; None if its VR is not SQ."""
    return None if element.items is None else [Level(data, item.elements) for item in element.items]


def only(values):
    """The single one of some values, or None."""
    return values[0] if values is not None and len(values) == 1 else None


def whole_quarters(pair):
    """Two floats as fractions of whole quarters, or None if one of them is none. Minus zero is zero."""
    if pair is None or not all(math.isfinite(number) and (4 * Fraction(number)).denominator == 1 for number in pair):
        return None
    return Fraction(pair[0]), Fraction(pair[1])


def trimmed(part, vr):
    """CS, IS and DS lose outer spaces, UI trailing zero bytes; nothing else is taken off."""
    return part.rstrip(b"\0") if vr == "UI" else part.strip(b" ")


INTEGER_FORM = re.compile(rb"[+-]?[0-9]{1,11}")
DECIMAL_FORM = re.compile(rb"([+-]?)([0-9]*)(?:\.([0-9]*))?(?:[Ee]([+-]?[0-9]+))?")
DECIMAL_CHARACTERS = 16
UNIT = 1_000_000  # millionths: what a DS is counted in, to one


def integer(text):
    """An IS value: optional sign, then 1 to 11 digits. None if it has another form."""
    if text is None or not INTEGER_FORM.fullmatch(text):
        return None
    return int(text)


def decimal(text):
    """The exact number of a DS value, in full (Q-2): "at most 16 characters without outer spaces, sign, digits, point,
    exponent, a digit or more before the exponent (E or e, then a sign or none) and in it".

    None if it has another form, or is too large or too fine for `millionths`: its power of ten is not worked out then.
    """
    match = DECIMAL_FORM.fullmatch(text) if len(text) <= DECIMAL_CHARACTERS else None
    if match is None:
        return None
    sign, whole, fraction, exponent = match.group(1), match.group(2), match.group(3) or b"", match.group(4) or b"0"
    if not whole + fraction:
        return None
    digits = int(whole + fraction)
    power = int(exponent) - len(fraction)
    if digits == 0:
        return Fraction(0)
    # 1 <= digits < 10^16. Above 6 the number is at least 10^7; below -22 it is under 10^-6 and not 0.
    if not -22 <= power <= 6:
        return None
    number = digits * Fraction(10) ** power
    return -number if sign == b"-" else number


def millionths(text):
    """A DS value in millionths. "Its exact number must be a whole count of millionths, below one million in size": None if
    it is not, or has another form."""
    number = None if text is None else decimal(text)
    if number is None or (number * UNIT).denominator != 1 or not abs(number) < 1_000_000:
        return None
    return int(number * UNIT)
