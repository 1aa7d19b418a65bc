"""What identifies a run; and nothing about the patient is printed unless asked for."""

import json
import random

from desk.common import FINE, REFUSED, Desk, with_head
from generators import enhanced_xa as xa
from generators.objects import element, encode
from reference import attributes as tags

TAGS = {"sop_instance_uid": (0x00080018, "UI", "1.2.3.4.5"), "study_instance_uid": (0x0020000D, "UI", "1.2.3.4"),
        "institution_name": (0x00080080, "LO", "Klinikum Süd"), "station_name": (0x00081010, "SH", "ANGIO 2"),
        "acquisition_datetime": (0x0008002A, "DT", "20240305050000")}
PATIENT = {"patient_name": (0x00100010, "PN", "Secret^Person"), "patient_id": (0x00100020, "LO", "SECRET-77"),
           "patient_birth_date": (0x00100030, "DA", "19010203")}
NAMES = {"sop_instance_uid": "SOP Instance UID", "study_instance_uid": "Study Instance UID", "institution_name": "Institution Name",
         "station_name": "Station Name", "acquisition_datetime": "Acquisition DateTime", "patient_name": "Patient's Name",
         "patient_id": "Patient ID", "patient_birth_date": "Patient's Birth Date"}


def model(charset="ISO_IR 100", code="latin-1", **changes):
    made = xa.build(random.Random(1), xa.Shape(extras=False))
    made[0x00080005] = ("CS", (charset + " " * (len(charset) % 2)).encode())
    for tag, vr, value in [*TAGS.values(), *PATIENT.values()]:
        raw = value.encode(code)
        made[tag] = (vr, raw + (b"\0" if vr == "UI" else b" ") * (len(raw) % 2))
    made.update(changes.get("more", {}))
    return made


class TestIdentity(Desk):
    def told(self, data, *words, status=FINE):
        self.put("run.xa", data)
        return json.loads(self.lines("judge", "run.xa", "--json", *words, status=status)[0])["identity"]

    def test_values(self):
        wanted = {key: value for key, (_, _, value) in TAGS.items()}
        self.assertEqual(self.told(encode(model())), wanted)
        everything = {**wanted, **{key: value for key, (_, _, value) in PATIENT.items()}}
        self.assertEqual(self.told(encode(model()), "--patient"), everything)
        for words, values in ((("--long",), wanted), (("--long", "--patient"), everything)):
            lines = self.lines("judge", "run.xa", *words)
            self.assertEqual(lines[0], "run.xa: accepted")
            self.assertEqual(sorted(lines[1:-1]), sorted(f"  {NAMES[key]}: {value}" for key, value in values.items()))

    def test_nothing_of_the_patient(self):
        """In no output of judge, rows, show, sheet or slips, good or refused, and in no file that is written."""
        broken = model(more={tags.MODALITY: xa.text("CS", "OT"), 0x00101002: xa.sq({0x00100020: xa.text("LO", "SECRET-78")})})
        self.put("good.xa", encode(model()))
        self.put("bad.xa", encode(broken))
        said = b""
        for words in (("judge", ".", "--long"), ("judge", ".", "--json"), ("rows", "bad.xa", "--names"), ("rows", "bad.xa", "--names", "--tree"),
                      ("show", "good.xa", "1"), ("sheet", "good.xa"), ("report", ".", "--csv")):
            done = self.luux(*words, status=REFUSED if words[0] == "judge" else FINE)
            said += done.stdout + done.stderr
        for name in ("report.html", "report.csv"):
            with open(self.path(name), "rb") as file:
                said += file.read()
        for secret in (b"Secret", b"SECRET", b"19010203"):
            self.assertNotIn(secret, said)
        self.assertIn(b"SECRET-78", self.luux("rows", "bad.xa", "--names", "--patient").stdout)
        for command in ("rows", "judge"):
            self.assertIn(b"required", self.luux(command, "bad.xa", "--patient", status=2).stderr)

    def test_absent(self):
        made = model()
        for tag, _, _ in TAGS.values():
            if tag != tags.ACQUISITION_DATE_TIME:
                del made[tag]
        self.assertEqual(self.told(encode(made)), {"acquisition_datetime": "20240305050000"})

    def test_a_run_that_does_not_read(self):
        """The part before the refused header is quoted; if it gives no instance, the head does."""
        self.assertEqual(self.told(encode(model())[:-2], status=REFUSED)["institution_name"], "Klinikum Süd")
        self.bare = False
        head = with_head(b"")
        place = head.index(element(0x00020010, "UI", b"1.2.840.10008.1.2.1\0"))
        named = bytearray(head[:place] + element(0x00020003, "UI", b"9.8.7\0") + head[place:])
        named[140:144] = (int.from_bytes(named[140:144], "little") + 14).to_bytes(4, "little")
        self.assertEqual(self.told(bytes(named) + b"\0" * 7, status=REFUSED), {"sop_instance_uid": "9.8.7"})

    def test_another_syntax(self):
        """The sender of compressed pixels is named."""
        self.bare = False
        data = encode(model(more={tags.PIXEL_DATA: ("OB", b"")}))
        said = self.told(with_head(data, syntax=b"1.2.840.10008.1.2.4.50"), status=REFUSED)
        self.assertEqual(said["institution_name"], "Klinikum Süd")

    def test_letters(self):
        for charset, code in (("ISO_IR 100", "latin-1"), ("ISO_IR 192", "utf-8"), ("ISO 2022 IR 100", "latin-1"), ("ISO_IR 101", "iso8859-2"),
                              ("GB18030", "gb18030")):
            self.assertEqual(self.told(encode(model(charset, code)))["institution_name"], "Klinikum Süd", charset)
        odd = model("ISO_IR 192", "utf-8", more={0x00080080: ("LO", "a\x1b[31m\u202ebc\n".encode())})
        self.assertEqual(self.told(encode(odd))["institution_name"], "a\\x1B[31m\\u{202E}bc\\x0A")
        # Blanks of any width are no harm.
        wide = model("ISO_IR 192", "utf-8", more={0x00080080: ("LO", "\u5c71\u3000\u7530\u00a0\u7530".encode())})
        self.assertEqual(self.told(encode(wide))["institution_name"], "\u5c71\u3000\u7530\u00a0\u7530")
