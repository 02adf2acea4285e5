"""The binary format, a line a row (Component Model, Binary.md)."""

import re

from .core_modules import module_bytes
from .leb import framed, leb, limits_bytes, signed_leb, vector
from .model import SORTS, Place
from .scopes import declared, space_of

PREAMBLE = b"\0asm\x0d\0\1\0"

# What a leaf is written as: `n` an index or a number in LEB128, `s` a length and the bytes, `b` the bytes alone,
# `N` a name of an import or export, `vt` a value type, `cv` a core value type, `st`, `cs` the sort of a kind, `stn`, `csn` sort and index of a
# reference, `v(..)` a count and the items, `o(..)` a part that may be missing, `r(..)` a result, `d` a description, `e` an entity, `op` an
# option, `l` limits.

# Rows by section. A number in front of a part is that of its leaf, where they stand in another order.
ITEMS = {
    "core module": (1, "module"),
    "core instantiate": (2, "00 n v(s 12 n)"),
    "core bundle": (2, "01 v(s csn)"),
    "core function type": (3, "60 v(cv) v(cv)"),
    "core rec": (3, "4e v(item)"),
    "module type": (3, "50 decls"),
    "component": (4, "component"),
    "instantiate": (5, "00 n v(s stn)"),
    "bundle": (5, "01 v(N stn)"),
    "alias export": (6, "2:st 00 0:n 1:s"),
    "alias core export": (6, "00 2:cs 01 0:n 1:s"),
    "alias outer": (6, "2:st 02 0:n 1:n"),
    "primitive": (7, "vt"),
    "record": (7, "72 v(s vt)"),
    "variant": (7, "71 v(case s o(vt) 00)"),
    "list": (7, "70 vt"),
    "fixed-length list": (7, "67 vt n"),
    "tuple": (7, "6f v(vt)"),
    "flags": (7, "6e v(s)"),
    "enum": (7, "6d v(s)"),
    "option": (7, "6b vt"),
    "result": (7, "6a o(vt) o(vt)"),
    "own": (7, "69 n"),
    "borrow": (7, "68 n"),
    "stream": (7, "66 o(vt)"),
    "future": (7, "65 o(vt)"),
    "function": (7, "async v(s vt) r(vt)"),
    "component type": (7, "41 decls"),
    "instance type": (7, "42 decls"),
    "resource": (7, "3f cv o(n)"),
    "lift": (8, "00 00 1:n 2:v(op) 0:n"),
    "lower": (8, "01 00 n v(op)"),
    "resource.new": (8, "02 n"),
    "resource.drop": (8, "03 n"),
    "resource.rep": (8, "04 n"),
    "task.cancel": (8, "05"),
    "subtask.cancel": (8, "06 n"),
    "task.return": (8, "09 r(vt) v(op)"),
    "context.get": (8, "0a cv n"),
    "context.set": (8, "0b cv n"),
    "subtask.drop": (8, "0d"),
    "stream.new": (8, "0e n"),
    "stream.read": (8, "0f n v(op)"),
    "stream.write": (8, "10 n v(op)"),
    "stream.cancel-read": (8, "11 n n"),
    "stream.cancel-write": (8, "12 n n"),
    "stream.drop-readable": (8, "13 n"),
    "stream.drop-writable": (8, "14 n"),
    "future.new": (8, "15 n"),
    "future.read": (8, "16 n v(op)"),
    "future.write": (8, "17 n v(op)"),
    "future.cancel-read": (8, "18 n n"),
    "future.cancel-write": (8, "19 n n"),
    "future.drop-readable": (8, "1a n"),
    "future.drop-writable": (8, "1b n"),
    "error-context.new": (8, "1c v(op)"),
    "error-context.debug-message": (8, "1d v(op)"),
    "error-context.drop": (8, "1e"),
    "waitable-set.new": (8, "1f"),
    "waitable-set.drop": (8, "22"),
    "waitable.join": (8, "23"),
    "backpressure.inc": (8, "24"),
    "backpressure.dec": (8, "25"),
    "thread.spawn-ref": (8, "40 n"),
    "thread.spawn-indirect": (8, "41 n n"),
    "thread.available-parallelism": (8, "42"),
    "start": (9, "n v(n) n"),
    "import": (10, "N d"),
    "export": (11, "0:N 2:stn 1:o(d)"),
    "custom": (0, "s b"),
    "producers": (0, "producers"),
}
# In a type each declaration begins with a byte of its own.
DECLARATIONS = {3: b"\0", 7: b"\1", 6: b"\2", 10: b"\3", 11: b"\4"}
MODULE_DECLARATIONS = {3: b"\1"}
MODULE_ITEMS = {"core import": "00 s s e", "alias outer": "02 10 01 0:n 1:n", "core export": "03 s e"}
DESCRIPTIONS = {
    "core module description": "00 11 n",
    "func description": "01 n",
    "eq": "03 00 n",
    "sub resource": "03 01",
    "component description": "04 n",
    "instance description": "05 n",
}
ENTITIES = {"func entity": "00 n", "table entity": "01 cv l", "memory entity": "02 l", "global entity": "03 cv n"}
OPTIONS = {
    "string-encoding=utf8": "00",
    "string-encoding=utf16": "01",
    "string-encoding=latin1+utf16": "02",
    "memory": "03 n",
    "realloc": "04 n",
    "post-return": "05 n",
    "async": "06",
    "callback": "07 n",
}
PART = re.compile(r"(?:(\d):)?([0-9a-f]{2}(?![a-z(])|[A-Za-z]+)(\((?:[^()]|\([^()]*\))*\))? ?")


# ---- leaves


def number_of(leaf):
    """The number of a leaf: itself, the depth of a place, or the index of a reference."""
    if isinstance(leaf, int):
        return leaf
    if isinstance(leaf, Place):
        return leaf.depth
    return leaf.target.index() if leaf.target else leaf.index.number


def core_value_bytes(leaf):
    if leaf.heap is None:
        return bytes([leaf.byte])
    return bytes([leaf.byte]) + (bytes([leaf.heap]) if isinstance(leaf.heap, int) else signed_leb(number_of(leaf.heap)))


def producers_bytes(*fields):
    """The fields that aren't empty, in their order."""
    made = [(word, pairs) for word, pairs in zip((b"language", b"sdk", b"processed-by"), fields) if pairs]
    return framed(b"producers") + vector([framed(word) + vector([framed(a) + framed(b) for a, b in pairs]) for word, pairs in made])


def entry_bytes(leaf, line):
    return spelled(line, leaf if isinstance(leaf, tuple) else (leaf,))


LEAVES = {
    "n": lambda leaf: leb(number_of(leaf)),
    "s": framed,
    "b": lambda leaf: leaf,
    "N": lambda leaf: b"\0" + framed(leaf),
    "vt": lambda leaf: bytes([leaf]) if isinstance(leaf, int) else signed_leb(number_of(leaf)),
    "cv": core_value_bytes,
    "st": lambda leaf: SORTS[leaf],
    "cs": lambda leaf: SORTS[leaf][1:],
    "stn": lambda leaf: SORTS[leaf.space] + leb(number_of(leaf)),
    "csn": lambda leaf: SORTS[leaf.space][1:] + leb(number_of(leaf)),
    "async": lambda leaf: b"\x43" if leaf else b"\x40",
    "case": lambda leaf: b"",
    "d": lambda leaf: spelled(DESCRIPTIONS[leaf.row], leaf.leaves),
    "e": lambda leaf: spelled(ENTITIES[leaf.row], leaf.leaves),
    "op": lambda leaf: spelled(OPTIONS[leaf.row], leaf.leaves),
    "l": limits_bytes,
    "item": lambda leaf: item_bytes(leaf),
    "decls": lambda leaf: vector([declaration_bytes(entry.node, leaf.kind) for entry in leaf.entries]),
    "component": lambda leaf: component_bytes(leaf),
    "module": module_bytes,
}
LISTS = {
    "v": lambda leaf, line: vector([entry_bytes(each, line) for each in leaf]),
    "o": lambda leaf, line: b"\0" if leaf is None else b"\1" + entry_bytes(leaf, line),
    "r": lambda leaf, line: b"\1\0" if leaf is None else b"\0" + entry_bytes(leaf, line),
}


def spelled(line, leaves):
    """The bytes of a line with these leaves."""
    if line == "producers":
        return producers_bytes(*leaves)
    out, taken = b"", 0
    for place, word, inner in PART.findall(line):
        if len(word) == 2 and word not in LEAVES:
            out += bytes.fromhex(word)
            continue
        leaf = leaves[int(place)] if place else leaves[taken]
        taken += 1
        out += LISTS[word](leaf, inner[1:-1]) if inner else LEAVES[word](leaf)
    return out


# ---- definitions


def item_bytes(node):
    return spelled(ITEMS[node.row][1], node.leaves)


def declaration_bytes(node, kind):
    """A declaration of a type."""
    if kind == "module type" and node.row in MODULE_ITEMS:
        return spelled(MODULE_ITEMS[node.row], node.leaves)
    if node.row == "export type":
        return DECLARATIONS[11] + spelled("N d", node.leaves)
    return (MODULE_DECLARATIONS if kind == "module type" else DECLARATIONS)[ITEMS[node.row][0]] + item_bytes(node)


ALONE = (0, 1, 4, 9)


def component_bytes(scope):
    """A component: neighbours of one section share it, but for those that are sections of their own; last the names."""
    out, items = PREAMBLE, [(ITEMS[entry.node.row][0], item_bytes(entry.node)) for entry in scope.entries]
    while items:
        section, run = items[0][0], 1
        while section not in ALONE and run < len(items) and items[run][0] == section:
            run += 1
        out += bytes([section]) + framed(items[0][1] if section in ALONE else vector([item for _, item in items[:run]]))
        items = items[run:]
    names = name_section(scope)
    return out + (b"\0" + framed(framed(b"component-name") + names) if names else b"")


def name_section(scope):
    """The name of the component, and a part for each space with a named item; nothing where there is none."""
    shown = scope.names.shown()
    out = b"" if shown is None else b"\0" + framed(framed(shown))
    for space, sort in SORTS.items():
        named = []
        for entry in scope.entries:
            if space_of(entry.node) == space:
                named += [(entry.first + part, names.shown()) for part, names in enumerate(entry.names[: declared(entry.node)])]
        pairs = [leb(index) + framed(name) for index, name in named if name is not None]
        out += b"\1" + framed(sort + vector(pairs)) if pairs else b""
    return out
