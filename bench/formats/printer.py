"""The text of a component binary, with numerals in place of names, a line a row (docs/PRINTING.md); or why it has none.

The binary is read by the lines of `binary.py` as in `reader.py`, and what stands in them is kept.
"""

from .answers import answer
from .binary import DESCRIPTIONS, ENTITIES, ITEMS, MODULE_ITEMS, OPTIONS, PART
from .leb import signed_leb
from .model import ALIASED, CORE_EXPORTED, EXPORTED, SORTS
from .reader import ALONE, FLAGS, LIMIT, MOST_INSIDE, PREAMBLE, PRIMITIVES, Misread, Reader, TooDeep

MOST = 67_108_864
PRIMITIVE_WORDS = {
    0x7F: "bool",
    0x7E: "s8",
    0x7D: "u8",
    0x7C: "s16",
    0x7B: "u16",
    0x7A: "s32",
    0x79: "u32",
    0x78: "s64",
    0x77: "u64",
    0x76: "f32",
    0x75: "f64",
    0x74: "char",
    0x73: "string",
    0x64: "error-context",
}
CORE_WORDS = {0x7F: "i32", 0x7E: "i64", 0x7D: "f32", 0x7C: "f64", 0x7B: "v128", 0x70: "funcref", 0x6F: "externref"}
HEAPS = {0x70: "func", 0x6F: "extern"}


class NoText(Exception):
    """A part has no text."""


class CoreModule(Exception):
    """A core module is defined."""


# ---- what stands in a binary


class Taker(Reader):
    """Reads as `Reader` does, and keeps what each part has."""

    def line(self, text):
        """The leaves of a line, by their numbers where it has them."""
        leaves, placed = [], {}
        for place, word, inner in PART.findall(text):
            if len(word) == 2 and word not in TAKEN:
                self.expect(bytes.fromhex(word))
                continue
            leaf = getattr(self, "list_" + word)(inner[1:-1]) if inner else TAKEN[word](self)
            if word == "case":
                continue
            if place:
                placed[int(place)] = leaf
            else:
                leaves.append(leaf)
        return tuple(placed[n] for n in sorted(placed)) if placed else tuple(leaves)

    def named_one(self, lines):
        """The one of some named lines that stands here, and its leaves."""
        start = self.at
        for name, text in lines.items():
            try:
                self.at = start
                return name, self.line(text)
            except Misread:
                continue
        raise Misread

    def list_v(self, text):
        return [self.line(text) for _ in range(self.number())]

    def list_o(self, text):
        byte = self.byte()
        if byte > 1:
            raise Misread
        return self.line(text) if byte else None

    def list_r(self, text):
        byte = self.byte()
        if byte > 1:
            raise Misread
        if byte:
            self.expect(b"\0")
            return None
        return self.line(text)

    def take(self, count):
        start = self.at
        super().take(count)
        return self.data[start : self.at]

    def sort(self, is_core=None):
        for space, spelled in SORTS.items():
            if self.data[self.at : min(self.end, self.at + len(spelled))] == spelled and is_core in (None, len(spelled) == 2):
                self.at += len(spelled)
                return space
        raise Misread

    def core_sort(self):
        byte = self.byte()
        for space, spelled in SORTS.items():
            if len(spelled) == 2 and spelled[1] == byte:
                return space
        raise Misread

    def flag(self):
        byte = self.byte()
        if byte > 1:
            raise Misread
        return byte == 1

    def value(self):
        start = self.at
        super().value()
        return self.word_between(start, PRIMITIVE_WORDS)

    def word_between(self, start, words):
        """The word of a byte, or the numeral of an index, that was read from there."""
        if self.at - start == 1 and self.data[start] in words:
            return words[self.data[start]]
        self.at = start
        return str(signed_number(self))

    def core_value(self):
        byte = self.byte()
        if byte in CORE_WORDS:
            return CORE_WORDS[byte]
        if byte not in (0x63, 0x64):
            raise Misread
        if byte == 0x64 and self.at < self.end and self.data[self.at] in HEAPS:
            return "(ref %s)" % HEAPS[self.byte()]
        return "(ref %s%d)" % ("null " if byte == 0x63 else "", signed_number(self))

    def limits(self):
        return [self.number() for _ in range(1 + self.flag())]

    def scope(self, kind):
        if self.inside >= MOST_INSIDE:
            raise TooDeep(self.at)
        self.inside += 1
        found = [self.declaration(kind) for _ in range(self.number())]
        self.inside -= 1
        return found

    def declaration(self, kind):
        if kind == "module":
            if self.at < self.end and self.data[self.at] == 1:
                self.at += 1
                return self.item(3)
            name, leaves = self.named_one(MODULE_ITEMS)
            return ("module alias" if name == "alias outer" else name), leaves
        byte = self.byte()
        if byte == 4:
            return "export type", self.line("N d")
        for section, lead in ((3, 0), (7, 1), (6, 2), (10, 3)):
            if lead == byte and (section != 10 or kind == "component"):
                return self.item(section)
        raise Misread

    def item(self, section):
        byte = self.data[self.at] if self.at < self.end else None
        for row, first, kind, at in (("component type", 0x41, "component", 7), ("instance type", 0x42, "instance", 7), ("module type", 0x50, "module", 3)):
            if (section, byte) == (at, first):
                self.at += 1
                return row, (self.scope(kind),)
        return self.named_one(LINES[section])

    def component(self):
        self.section = 0
        self.expect(PREAMBLE)
        last, found = None, []
        while self.at != self.end:
            self.section = self.at
            number, length = self.byte(), self.number()
            if number > 11 or length > self.end - self.at or (number == last and number not in ALONE):
                raise Misread
            body = Taker(self.data, self.at, self.at + length, self.inside)
            found += body.fill(number)
            self.at += length
            last = number
        return found

    def fill(self, number):
        if number == 4:
            if self.inside >= MOST_INSIDE:
                raise TooDeep(self.at)
            self.inside += 1
            found = [("component", (self.component(),))]
        elif number == 1:
            found, self.at = [("core module", ())], self.end
        else:
            count = 1 if number in ALONE else self.number()
            if count == 0:
                raise Misread
            found = [self.item(number) for _ in range(count)]
        if self.at != self.end:
            raise Misread
        return found


def signed_number(reader):
    return reader.number(signed_leb)


def asynchronous(byte):
    if byte not in (0x40, 0x43):
        raise Misread
    return byte == 0x43


def primitive(reader):
    byte = reader.byte()
    if byte not in PRIMITIVES:
        raise Misread
    return PRIMITIVE_WORDS[byte]


TAKEN = {
    "n": lambda reader: reader.number(),
    "s": lambda reader: reader.take(reader.number()),
    "b": lambda reader: reader.take(reader.end - reader.at),
    "N": lambda reader: (reader.expect(b"\0"), reader.take(reader.number()))[1],
    "vt": Taker.value,
    "primitive": primitive,
    "cv": Taker.core_value,
    "st": Taker.sort,
    "cs": Taker.core_sort,
    "stn": lambda reader: (reader.sort(), reader.number()),
    "csn": lambda reader: (reader.core_sort(), reader.number()),
    "async": lambda reader: asynchronous(reader.byte()),
    "flag": Taker.flag,
    "case": lambda reader: None,
    "d": lambda reader: reader.named_one(DESCRIPTIONS),
    "e": lambda reader: reader.named_one(ENTITY_LINES),
    "op": lambda reader: reader.named_one(OPTIONS),
    "l": Taker.limits,
    "item": lambda reader: reader.line("60 v(cv) v(cv)"),
}
ENTITY_LINES = {row: text[:-1] + "flag" if row == "global entity" else text for row, text in ENTITIES.items()}
LINES = {0: {"custom": "s b"}}
for row, (number, text) in ITEMS.items():
    if number and "decls" not in text and row not in ("component", "core module"):
        text = text[:-1] + "flag" if row in FLAGS else "primitive" if row == "primitive" else text
        LINES.setdefault(number, {})[row] = text


# ---- what is printed


def string(data, is_payload=False):
    """A string: each byte outside 0x20 to 0x7e, `"` and `\\` by two digits. Only a payload may be no UTF-8."""
    if not is_payload:
        try:
            data.decode()
        except UnicodeDecodeError:
            raise NoText from None
    return '"%s"' % "".join(chr(byte) if 0x20 <= byte <= 0x7E and byte not in b'"\\' else "\\%02x" % byte for byte in data)


def among(spaces, space):
    """The words of a sort, where it has some."""
    if space not in spaces:
        raise NoText
    return space


def core_kind(space):
    return among(CORE_EXPORTED, space).removeprefix("core ")


def sorted_index(reference):
    return "%s %d" % (among(EXPORTED, reference[0]), reference[1])


def each(form, items):
    return "".join(" " + form(*item) for item in items)


def optional(form, item):
    return "" if item is None else " " + form(*item)


def func(params, results):
    return "(func%s%s)" % (each("(param {})".format, params), each("(result {})".format, results))


def entity(leaf):
    row, leaves = leaf
    if row == "func entity":
        return "(func (type %d))" % leaves
    if row == "table entity":
        if leaves[0] != "funcref" and leaves[0] != "externref" and not leaves[0].startswith("(ref"):
            raise NoText
        return "(table %s %s)" % (" ".join(map(str, leaves[1])), leaves[0])
    if row == "memory entity":
        return "(memory %s)" % " ".join(map(str, leaves[0]))
    return "(global %s)" % ("(mut %s)" % leaves[0] if leaves[1] else leaves[0])


def description(row, leaves):
    if row == "sub resource":
        return "(type (sub resource))"
    if row == "eq":
        return "(type (eq %d))" % leaves
    return "(%s (type %d))" % (row.removesuffix(" description"), *leaves)


def options(found):
    def one(row, leaves):
        return "(%s %d)" % (row, *leaves) if leaves else row

    return each(one, found)


def canonical(row, leaves):
    """`(canon W (core func))` with what the row has in between."""
    out = row
    for leaf in leaves:
        if isinstance(leaf, bool):
            out += " async" if leaf else ""
        elif isinstance(leaf, list):
            out += options([item[0] for item in leaf])
        else:
            out += " %s" % leaf
    return "(canon %s (core func))" % out


def cases(name, value):
    return "(case %s%s)" % (string(name), optional("{}".format, value))


# A type, by its row.
TYPES = {
    "primitive": "{}".format,
    "record": lambda fields: "(record%s)" % each(lambda name, value: "(field %s %s)" % (string(name), value), fields),
    "variant": lambda items: "(variant%s)" % each(cases, items),
    "list": "(list {})".format,
    "fixed-length list": "(list {} {})".format,
    "tuple": lambda items: "(tuple%s)" % each("{}".format, items),
    "flags": lambda names: "(flags%s)" % each(string, names),
    "enum": lambda names: "(enum%s)" % each(string, names),
    "option": "(option {})".format,
    "result": lambda value, error: "(result%s%s)" % (optional("{}".format, value), optional("(error {})".format, error)),
    "own": "(own {})".format,
    "borrow": "(borrow {})".format,
    "stream": lambda value: "(stream%s)" % optional("{}".format, value),
    "future": lambda value: "(future%s)" % optional("{}".format, value),
    "function": lambda is_async, params, result: "(func%s%s%s)"
    % (" async" if is_async else "", each(lambda name, value: "(param %s %s)" % (string(name), value), params), optional("(result {})".format, result)),
    "component type": lambda found: "(component%s)" % printed(found, True),
    "instance type": lambda found: "(instance%s)" % printed(found, True),
    "resource": lambda value, drop: "(resource (rep %s)%s)" % (value, optional("(dtor {})".format, drop)),
}
# A definition of another row.
ROWS = {
    "core instantiate": lambda n, arguments: "(core instance (instantiate %d%s))" % (n, each(lambda s, i: "(with %s (instance %d))" % (string(s), i), arguments)),
    "core bundle": lambda items: "(core instance%s)" % each(lambda s, r: "(export %s (%s %d))" % (string(s), core_kind(r[0]), r[1]), items),
    "core function type": lambda params, results: "(core type %s)" % func(params, results),
    "core rec": lambda types: "(core rec%s)" % each(lambda t: "(type %s)" % func(*t), types),
    "module type": lambda found: "(core type (module%s))" % in_module(found),
    "component": lambda found: "(component%s)" % printed(found, False),
    "instantiate": lambda n, arguments: "(instance (instantiate %d%s))" % (n, each(lambda s, r: "(with %s (%s))" % (string(s), sorted_index(r)), arguments)),
    "bundle": lambda items: "(instance%s)" % each(lambda s, r: "(export %s (%s))" % (string(s), sorted_index(r)), items),
    "alias export": lambda n, s, k: "(alias export %d %s (%s))" % (n, string(s), among(EXPORTED, k)),
    "alias core export": lambda n, s, k: "(alias core export %d %s (core %s))" % (n, string(s), core_kind(k)),
    "alias outer": lambda count, n, k: "(alias outer %d %d (%s))" % (count, n, among(ALIASED, k)),
    "lift": lambda type_index, function, found: "(canon lift (core func %d)%s (func (type %d)))" % (function, options([o[0] for o in found]), type_index),
    "lower": lambda n, found: "(canon lower (func %d)%s (core func))" % (n, options([o[0] for o in found])),
    "task.return": lambda result, found: "(canon task.return%s%s (core func))" % (optional("(result {})".format, result), options([o[0] for o in found])),
    "start": lambda n, arguments, results: "(start %d%s%s)" % (n, each("(value {})".format, arguments), " (result (value))" * min(results, MOST // 16)),
    "import": lambda name, d: "(import %s %s)" % (string(name), description(*d)),
    "export": lambda name, d, r: "(export %s (%s)%s)" % (string(name), sorted_index(r), optional(lambda found: description(*found), d)),
    "export type": lambda name, d: "(export %s %s)" % (string(name), description(*d)),
    "custom": lambda name, payload: "(@custom %s %s)" % (string(name), string(payload, True)),
}
# A declaration of the type of a core module.
MODULE_ROWS = {
    "core function type": lambda params, results: "(type %s)" % func(params, results),
    "core rec": lambda types: "(rec%s)" % each(lambda t: "(type %s)" % func(*t), types),
    "module alias": lambda count, n: "(alias outer %d %d (type))" % (count, n),
    "core import": lambda module, name, e: "(import %s %s %s)" % (string(module), string(name), entity(e)),
    "core export": lambda name, e: "(export %s %s)" % (string(name), entity(e)),
}


def in_module(found):
    if any(row not in MODULE_ROWS for row, _ in found):
        raise NoText
    return each(lambda row, leaves: MODULE_ROWS[row](*leaves), found)


def definition(row, leaves):
    if row in TYPES:
        return "(type %s)" % TYPES[row](*leaves)
    if row in ROWS:
        return ROWS[row](*leaves)
    return canonical(row, leaves)


def printed(found, is_type):
    """The definitions of a scope, without the sections of names of a component."""
    return each(definition, [item for item in found if is_type or item[0] != "custom" or item[1][0] != b"component-name"])


def holds_module(found):
    return any(row == "core module" or (row == "component" and holds_module(leaves[0])) for row, leaves in found)


def text_of(data):
    """The text of the component that bytes are read as; they are at most 8,388,608."""
    found = Taker(data, 0, len(data), 0).component()
    if holds_module(found):
        raise CoreModule
    return "(component%s)" % printed(found, False)


def answer_to(data):
    """The text, or the line that says why there is none. No weight is looked at."""
    if len(data) > LIMIT:
        return "error: Read-TooBig at 0"
    reader = Taker(data, 0, len(data), 0)
    try:
        found = reader.component()
    except Misread:
        return "error: Read-NotComponent at %d" % reader.section
    except TooDeep as deep:
        return "error: Read-TooDeep at %d" % deep.args[0]
    if holds_module(found):
        return "error: Print-CoreModule at 0"
    try:
        text = "(component%s)" % printed(found, False)
    except NoText:
        return "error: Print-NoText at 0"
    if len(text) > MOST:
        return "error: Print-TooBig at 0"
    if answer(text.encode())[0].startswith("error: TooDeep"):
        return "error: Print-TooDeep at 0"
    return text
