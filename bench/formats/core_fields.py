"""The fields of core modules, as far as they are written here (WebAssembly text format, Module Fields and Instructions)."""

from dataclasses import dataclass, field

from .core_types import (
    OTHER_LIMITS, OTHER_TYPES, core_params, global_type, is_reference_type, limits, memory_type, named_function, other_reference, reference_type,
    skip, table_type,
)
from .cursor import Cursor, integer_value
from .model import Names, Ref
from .tokens import is_utf8

# Instructions: what stands behind the word, and the byte.
PLAIN = {"unreachable": 0x00, "nop": 0x01, "return": 0x0F, "drop": 0x1A, "i32.add": 0x6A, "i32.sub": 0x6B, "i32.mul": 0x6C}
INDEXED = {
    "call": (0x10, "core func"),
    "local.get": (0x20, "local"),
    "local.set": (0x21, "local"),
    "local.tee": (0x22, "local"),
    "global.get": (0x23, "core global"),
    "global.set": (0x24, "core global"),
}
CONSTANT = {"i32.const": (0x41, 32), "i64.const": (0x42, 64)}
OTHER_FIELDS = ("rec", "start", "elem", "data", "tag")
OTHER_NOTES = ("@custom", "@producers", "@dylink.0")
HINT = "@metadata.code.branch_hint"


@dataclass
class Function:
    """A function type: parameters with their names, and results."""

    params: list = field(default_factory=list)
    results: list = field(default_factory=list)


@dataclass
class Use:
    """The use of a function type: by an index, by what is written, or both."""

    index: Ref = None
    written: Function = None


@dataclass
class Field:
    """A field: its kind, the offset of its first word, its names, its inline exports and import, and what it says."""

    kind: str
    offset: int
    is_import_field: bool = False
    names: Names = field(default_factory=Names)
    exports: list = field(default_factory=list)
    imported: tuple = None
    says: object = None
    locals: list = field(default_factory=list)
    body: list = field(default_factory=list)


# ---- types


def function(c):
    return Function(*named_function(c))


def type_definition(c):
    """ctdef = "func" param* result*, or another type, which is never written"""
    if c.is_word("func"):
        c.bump()
        return function(c)
    c.form(6)
    c.one_of(OTHER_TYPES)
    skip(c)
    return None


def type_use(c):
    """tuse = ( "(" "type" idx ")" )? param* result*"""
    index = c.worded("type", Cursor.reference, "core type", "own") if c.is_group("type") else None
    return Use(index, function(c) if c.is_group("param", "result") else None)


# ---- instructions


def instructions(c):
    """instr*, where instr = op | "(" op instr* ")": a folded instruction stands behind its operands. They nest to any depth."""
    out, folded = [], []
    while folded or not c.is_end():
        if c.peek().kind == ")":
            c.bump()
            out.append(folded.pop())
        elif is_operation(c, 0):
            out.append(operation(c))
        elif c.peek().kind == "(" and is_operation(c, 1):
            c.bump()
            folded.append(operation(c))
        else:
            other_instructions(c)
    return out


def is_operation(c, ahead):
    return c.is_word(*PLAIN, *INDEXED, *CONSTANT, ahead=ahead)


def operation(c):
    """op: the byte, and a reference or a number"""
    word = c.bump().value
    if word in PLAIN:
        return PLAIN[word], None
    if word in INDEXED:
        byte, space = INDEXED[word]
        return byte, c.reference(space, "own")
    byte, bits = CONSTANT[word]
    token = c.peek()
    if token.kind != "integer" or not -(2 ** (bits - 1)) <= integer_value(token.value) < 2**bits:
        c.fail()
    return byte, (integer_value(c.bump().value) + 2 ** (bits - 1)) % 2**bits - 2 ** (bits - 1)


def other_instructions(c):
    """Instructions from another keyword, a group of one or a hint on, as far as their group goes: never written."""
    c.form(7)
    if c.peek().kind == "annotation":
        c.take("annotation", HINT)
        skip(c)
        c.take(")")
    elif c.peek().kind == "(":
        c.group(lambda c: (c.take("word"), skip(c)))
    else:
        c.take("word")
    skip(c)


# ---- fields


def whole_group(c, word, names):
    """A group of this word and so many texts is next."""
    texts = [c.peek(2 + each) for each in range(names)]
    return c.is_group(word) and all(each.kind == "string" and is_utf8(each.value) for each in texts) and c.peek(2 + names).kind == ")"


def head(c):
    """A word, id? name?, inl = ( "(" "export" text ")" )* ( "(" "import" text text ")" )?"""
    out = Field(c.peek().value, c.bump().offset, names=c.names())
    while whole_group(c, "export", 1):
        out.exports.append(c.worded("export", Cursor.text))
    if whole_group(c, "import", 2):
        out.imported = c.worded("import", lambda c: (c.text(), c.text()))
    return out


def type_field(c):
    """ "type" id? name? "(" ctdef ")" """
    return Field("type", c.words("type"), names=c.names(), says=c.group(type_definition))


def import_field(c):
    """ "import" text text "(" csig ")" """
    out = Field(None, c.words("import"), True, imported=(c.text(), c.text()))
    c.group(signature, out)
    return out


def signature(c, out):
    """csig, of an item that is imported; that of a tag is never written"""
    out.kind = c.one_of(("func", "table", "memory", "global", "tag"))
    if out.kind == "tag":
        c.form(6)
        return skip(c)
    out.names = c.names()
    out.says = {"func": type_use, "table": table_type, "memory": memory_type, "global": global_type}[out.kind](c)


def func_field(c):
    """ "func" id? name? inl tuse local* instr*; an import has no locals and no instructions"""
    out = head(c)
    out.says = type_use(c)
    if not out.imported:
        out.locals = [local for group in c.groups("local", core_params) for local in group]
        out.body = instructions(c)
    return out


def global_field(c):
    """ "global" id? name? inl gtype instr*; an import has no instructions"""
    out = head(c)
    out.says = global_type(c)
    if not out.imported:
        out.body = instructions(c)
    return out


def memory_field(c):
    """ "memory" id? name? inl limits, or what is never written in place of the limits or behind them"""
    out = head(c)
    out.says = limits(c) if c.peek().kind == "integer" else None
    if out.says is None or not c.is_end():
        unwritten(c)
    return out


def table_field(c):
    """ "table" id? name? inl limits rtype, or what is never written in place of a part or behind it"""
    out = head(c)
    found = limits(c) if c.peek().kind == "integer" else None
    if is_unwritten(c):
        unwritten(c)
    elif is_reference_type(c):
        out.says = (reference_type(c, "own"), found)
        if found is None or not c.is_end():
            segment(c)
    else:
        with c.left_out():
            other_reference(c)
        if found is None:
            segment(c)
        else:
            c.form(7)
            skip(c)
    return out


def is_unwritten(c):
    """The word of other limits, or a group of `data` or `elem`, is next."""
    return c.is_word(*OTHER_LIMITS) or c.is_group("data", "elem")


def unwritten(c):
    if c.is_word(*OTHER_LIMITS):
        c.form(7)
        c.bump()
        skip(c)
    else:
        segment(c)


def segment(c):
    """A group of `data` or `elem`, as far as its field goes."""
    c.form(7)
    c.group(lambda c: (c.one_of(("data", "elem")), skip(c)))
    skip(c)


def export_field(c):
    """ "export" text "(" ( "func" | "table" | "memory" | "global" ) idx ")" """
    return Field("export", c.words("export"), says=(c.text(), c.group(exported)))


def exported(c):
    return c.reference("core " + c.one_of(("func", "table", "memory", "global")), "own")


def other_field(c):
    """Another field: never written."""
    c.form(7)
    out = Field("other", c.bump().offset)
    skip(c)
    return out


def other_note(c):
    """A field that is an annotation: never written."""
    if c.peek().value not in OTHER_NOTES:
        c.fail()
    out = other_field(c)
    c.take(")")
    return out


FIELDS = {
    "type": type_field,
    "import": import_field,
    "func": func_field,
    "memory": memory_field,
    "table": table_field,
    "global": global_field,
    "export": export_field,
    **{word: other_field for word in OTHER_FIELDS},
}


def core_field(c):
    """cfield, a line of the table"""
    if c.peek().kind == "annotation":
        with c.held(c.peek().offset):
            return other_note(c)
    return c.group(grouped_field)


def grouped_field(c):
    if not c.is_word(*FIELDS):
        c.fail()
    with c.held(c.peek().offset):
        return FIELDS[c.peek().value](c)
