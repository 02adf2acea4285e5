"""What a text says: scopes of definitions, each a node of one row of the format with its leaves.

A leaf is a text (bytes), a number, a kind (the name of a space), a missing part (None), a list of entries, an entry (a tuple of leaves),
a node, a core value, a reference, the place of an outer alias, the id of a case, a scope or a core module.
"""

from dataclasses import dataclass, field

# The spaces of items, with the bytes of their sorts, in the order of the name section.
SORTS = {
    "core func": b"\x00\x00",
    "core table": b"\x00\x01",
    "core memory": b"\x00\x02",
    "core global": b"\x00\x03",
    "core tag": b"\x00\x04",
    "core type": b"\x00\x10",
    "core module": b"\x00\x11",
    "core instance": b"\x00\x12",
    "func": b"\x01",
    "value": b"\x02",
    "type": b"\x03",
    "component": b"\x04",
    "instance": b"\x05",
}
# What core instances export, what instances export, and what an outer alias may lead to.
CORE_EXPORTED = ("core func", "core table", "core memory", "core global", "core tag")
EXPORTED = ("core module", "func", "value", "type", "component", "instance")
ALIASED = ("core module", "core type", "type", "component")


@dataclass
class Index:
    """An index as it is written: a number, or a name with its offset."""

    number: int = None
    name: bytes = None
    offset: int = field(default=0, compare=False)


@dataclass
class Node:
    """A row of the format with its leaves."""

    row: str
    leaves: tuple = ()


@dataclass
class Ref:
    """A reference into a space: by an index, which a path of names of exports may follow, or by what stands inline.

    A name with outward reach is looked for in the own scope and in those around it, one with own reach in the own scope alone, and one
    behind a place in the scope that the place leads to. Its number is its place among those of its definition, its root the reference with
    which its path begins, its target the item that it leads to.
    """

    space: str
    index: Index = None
    path: tuple = ()
    reach: str = "outward"
    inline: Node = None
    bundle: Node = None
    number: int = field(default=None, compare=False)
    root: object = field(default=None, compare=False)
    target: object = field(default=None, compare=False)


@dataclass
class CoreValue:
    """A core value type: its byte, and behind that of a reference the byte of its heap type or the index of a core type."""

    byte: int
    heap: object = None


@dataclass
class Place:
    """The first part of an outer alias: how many scopes outward, or the id of a scope. The offset is that of the word `alias`."""

    index: Index
    offset: int = field(default=0, compare=False)
    depth: int = field(default=None, compare=False)


@dataclass
class Case:
    """The id of a case of a variant, which serves nothing."""

    id: bytes
    offset: int = field(compare=False)


@dataclass
class Names:
    """An id with its offset and a label, either of which may be missing."""

    id: bytes = None
    offset: int = 0
    label: bytes = None

    def shown(self):
        return self.id if self.label is None else self.label


@dataclass
class Scope:
    """A component, or the type of a component, of an instance or of a core module."""

    kind: str
    names: Names
    definitions: list
    entries: list = field(default_factory=list, compare=False)
    table: dict = field(default_factory=dict, compare=False)


@dataclass
class CoreModule:
    """The fields of a core module and its names."""

    fields: list
    names: Names


@dataclass
class Definition:
    """A definition: its node, the names of the items that it declares, and the names of its inline exports."""

    node: Node
    names: list = field(default_factory=lambda: [Names()])
    exports: list = field(default_factory=list)


def direct(leaf):
    """The references, places, cases, scopes and core modules of a leaf in order, without those of what stands inline in it."""
    if isinstance(leaf, (Ref, Place, Case, Scope, CoreModule)):
        yield leaf
    elif isinstance(leaf, CoreValue) and isinstance(leaf.heap, Ref):
        yield leaf.heap
    elif isinstance(leaf, (list, tuple)):
        for part in leaf:
            yield from direct(part)
    elif isinstance(leaf, Node):
        yield from direct(leaf.leaves)


def references(node):
    """The references among these."""
    return [leaf for leaf in direct(node) if isinstance(leaf, Ref)]
