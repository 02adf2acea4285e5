"""Whether bytes are those of a component, by the lines of `binary.py`: read from the front, each number in its shortest form."""

from .binary import DECLARATIONS, DESCRIPTIONS, ENTITIES, ITEMS, MODULE_ITEMS, OPTIONS, PART, PREAMBLE
from .leb import leb, signed_leb
from .model import SORTS

LIMIT = 8_388_608
MOST_INSIDE = 99
PRIMITIVES = (0x64, *range(0x73, 0x80))
CORE_VALUES = (0x7F, 0x7E, 0x7D, 0x7C, 0x7B, 0x70, 0x6F)
# Rows whose last number is a flag.
FLAGS = ("subtask.cancel", "stream.cancel-read", "stream.cancel-write", "future.cancel-read", "future.cancel-write")
SECTION_LINES = {}
for row, (number, text) in ITEMS.items():
    if row in FLAGS:
        text = text[:-1] + "flag"
    SECTION_LINES.setdefault(number, []).append("primitive" if row == "primitive" else text)
SECTION_LINES[0] = ["s b"]
ENTITY_LINES = [text[:-1] + "flag" if row == "global entity" else text for row, text in ENTITIES.items()]
ALONE = (0, 1, 4, 9)


class Misread(Exception):
    """What is asked for doesn't stand there."""


class TooDeep(Exception):
    """A scope inside too many others begins at this offset."""


class Reader:
    """A place among bytes, and an end in front of which is read; how many scopes are open."""

    def __init__(self, data, at, end, inside):
        self.data, self.at, self.end, self.inside = data, at, end, inside

    def byte(self):
        if self.at == self.end:
            raise Misread
        self.at += 1
        return self.data[self.at - 1]

    def expect(self, wanted):
        for byte in wanted:
            if self.byte() != byte:
                raise Misread

    def number(self, encode=leb):
        start, value, shift = self.at, 0, 0
        while True:
            byte = self.byte()
            value |= (byte & 0x7F) << shift
            shift += 7
            if byte < 0x80 or shift > 35:
                break
        if value >= 1 << 32 or encode(value) != self.data[start : self.at]:
            raise Misread
        return value

    def take(self, count):
        if count > self.end - self.at:
            raise Misread
        self.at += count

    def one(self, lines):
        """The one of some lines that stands here."""
        start = self.at
        for text in lines:
            try:
                self.at = start
                return self.line(text)
            except Misread:
                continue
        raise Misread

    def line(self, text):
        for _, word, inner in PART.findall(text):
            if len(word) == 2 and word not in LEAVES:
                self.expect(bytes.fromhex(word))
            elif inner:
                getattr(self, "list_" + word)(inner[1:-1])
            else:
                LEAVES[word](self)

    def list_v(self, text):
        for _ in range(self.number()):
            self.line(text)

    def list_o(self, text):
        byte = self.byte()
        if byte == 1:
            self.line(text)
        elif byte != 0:
            raise Misread

    def list_r(self, text):
        byte = self.byte()
        if byte == 0:
            self.line(text)
        elif byte == 1:
            self.expect(b"\0")
        else:
            raise Misread

    def among(self, wanted):
        if self.byte() not in wanted:
            raise Misread

    def sort(self, is_core=None):
        for space, spelled in SORTS.items():
            if self.data[self.at : min(self.end, self.at + len(spelled))] == spelled and is_core in (None, len(spelled) == 2):
                self.at += len(spelled)
                return
        raise Misread

    def core_sort(self):
        self.among([spelled[1] for spelled in SORTS.values() if len(spelled) == 2])

    def value(self):
        if self.at < self.end and self.data[self.at] in PRIMITIVES:
            self.at += 1
        else:
            self.number(signed_leb)

    def core_value(self):
        byte = self.byte()
        if byte in (0x63, 0x64):
            if byte == 0x64 and self.at < self.end and self.data[self.at] in (0x70, 0x6F):
                self.at += 1
            else:
                self.number(signed_leb)
        elif byte not in CORE_VALUES:
            raise Misread

    def limits(self):
        flag = self.byte()
        if flag > 1:
            raise Misread
        for _ in range(1 + flag):
            self.number()

    def scope(self, kind):
        """The declarations of a type."""
        if self.inside >= MOST_INSIDE:
            raise TooDeep(self.at)
        self.inside += 1
        for _ in range(self.number()):
            self.declaration(kind)
        self.inside -= 1

    def declaration(self, kind):
        if kind == "module":
            byte = self.data[self.at] if self.at < self.end else None
            if byte == 1:
                self.at += 1
                return self.item(3)
            return self.one([MODULE_ITEMS["core import"].replace("e", "e"), MODULE_ITEMS["alias outer"], MODULE_ITEMS["core export"]])
        byte = self.byte()
        if byte == 4:
            return self.line("N d")
        for section, lead in DECLARATIONS.items():
            if lead[0] == byte and section != 11 and (section != 10 or kind == "component"):
                return self.item(section)
        raise Misread

    def item(self, section):
        """A definition of a section, without the section."""
        byte = self.data[self.at] if self.at < self.end else None
        scopes = {7: {0x41: "component", 0x42: "instance"}, 3: {0x50: "module"}}.get(section, {})
        if byte in scopes:
            self.at += 1
            return self.scope(scopes[byte])
        self.one([text for text in SECTION_LINES[section] if "decls" not in text])

    def component(self):
        """The component that fills the bytes; how many definitions it has."""
        self.section = 0
        self.expect(PREAMBLE)
        last, count = None, 0
        while self.at != self.end:
            self.section = self.at
            number = self.byte()
            length = self.number()
            if number > 11 or length > self.end - self.at or (number == last and number not in ALONE):
                raise Misread
            body = Reader(self.data, self.at, self.at + length, self.inside)
            count += body.fill(number)
            self.at += length
            last = number
        return count

    def fill(self, number):
        """What fills a section; how many definitions these are."""
        items = 1
        if number == 4:
            if self.inside >= MOST_INSIDE:
                raise TooDeep(self.at)
            self.inside += 1
            self.component()
        elif number == 1:
            self.at = self.end
        else:
            if number not in ALONE:
                items = self.number()
                if items == 0:
                    raise Misread
            for _ in range(items):
                self.item(number)
        if self.at != self.end:
            raise Misread
        return items


LEAVES = {
    "n": Reader.number,
    "s": lambda reader: reader.take(reader.number()),
    "b": lambda reader: reader.take(reader.end - reader.at),
    "N": lambda reader: (reader.expect(b"\0"), reader.take(reader.number())),
    "vt": Reader.value,
    "primitive": lambda reader: reader.among(PRIMITIVES),
    "cv": Reader.core_value,
    "st": Reader.sort,
    "cs": Reader.core_sort,
    "stn": lambda reader: (reader.sort(), reader.number()),
    "csn": lambda reader: (reader.core_sort(), reader.number()),
    "async": lambda reader: reader.among((0x40, 0x43)),
    "flag": lambda reader: reader.among((0, 1)),
    "case": lambda reader: None,
    "d": lambda reader: reader.one(DESCRIPTIONS.values()),
    "e": lambda reader: reader.one(ENTITY_LINES),
    "op": lambda reader: reader.one(OPTIONS.values()),
    "l": Reader.limits,
    "item": lambda reader: reader.line("60 v(cv) v(cv)"),
}


def read(data):
    """What bytes are read as, in print: how many definitions there are, or why not."""
    if len(data) > LIMIT:
        return f"TooBig {len(data)} {LIMIT} at 0"
    reader = Reader(data, 0, len(data), 0)
    try:
        return f"{reader.component()} definitions"
    except Misread:
        return f"NotComponent at {reader.section}"
    except TooDeep as deep:
        return f"TooDeep at {deep.args[0]}"
