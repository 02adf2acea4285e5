"""What names denote, what is generated and where, and the first demand of a scope that isn't met (Component Model, Index Spaces and Alias
Definitions)."""

from dataclasses import dataclass, field

from .core_modules import resolve_module
from .model import ALIASED, CORE_EXPORTED, Case, CoreModule, Index, Names, Node, Place, Ref, Scope, direct, references
from .tokens import Refused


@dataclass
class Entry:
    """A definition of the binary form: its mark with the number of the written definition, its node, and the items that it declares with the
    index of the first."""

    mark: str
    number: int
    node: Node
    names: list = field(default_factory=lambda: [Names()])
    first: int = None

    def line(self):
        """The mark as it is printed, with the number of the definition behind its first word."""
        word, *rest = self.mark.split()
        return " ".join([word, str(self.number), *rest])


@dataclass
class Item:
    """An item: the entry that declares it, and its number among those of the entry."""

    entry: Entry
    part: int = 0

    def index(self):
        return self.entry.first + self.part


# ---- what each row declares

DECLARES = {
    "core module": "core module",
    "core instantiate": "core instance",
    "core bundle": "core instance",
    "core function type": "core type",
    "core rec": "core type",
    "module type": "core type",
    "component": "component",
    "instantiate": "instance",
    "bundle": "instance",
    "start": "value",
    "lift": "func",
}
TYPES = {
    "primitive", "record", "variant", "list", "fixed-length list", "map", "tuple", "flags", "enum", "option", "result", "own", "borrow", "stream",
    "future", "function", "component type", "instance type", "resource",
}
# The types that may be written where a value type or a function type is asked for, of which equal ones are shared.
SHARED = TYPES - {"primitive", "component type", "instance type", "resource"}
# In a module type imports and exports declare nothing, and neither do custom sections.
NOTHING = {"core import", "core export", "custom", "producers"}


def space_of(node):
    """The space in which a row declares."""
    if node.row in NOTHING:
        return None
    if node.row in TYPES:
        return "type"
    if node.row.startswith("alias"):
        return node.leaves[2]
    if node.row == "export":
        return node.leaves[2].space
    if node.row in ("import", "export type"):
        described = node.leaves[1].row
        return "type" if described in ("eq", "sub resource") else described.removesuffix(" description")
    return DECLARES.get(node.row, "core func")


def declared(node):
    """How many items a row declares."""
    if node.row == "core rec":
        return len(node.leaves[0])
    return node.leaves[2] if node.row == "start" else int(node.row not in NOTHING)


# ---- the plan of a scope


def number_references(leaves, number):
    """Numbers the references of a definition in order, what stands inline behind its reference; inner scopes aren't entered."""
    for ref in references(leaves):
        ref.number = number
        number += 1
        inline = ref.inline or ref.bundle
        number = number_references(inline, number) if inline else number
    return number


def expanded(scope):
    """The definitions of a scope with their inline types and bundles in front: each type behind those inside it, bundles behind types."""
    out, written, types = [], [], []
    for number, definition in enumerate(scope.definitions):
        number_references(definition.node, 0)
        move_types(definition.node, number, written if scope.kind == "module type" else [], types, out)
        for ref in references(definition.node):
            if ref.bundle:
                out.append(Entry("bundle %d" % ref.number, number, ref.bundle))
                ref.target = Item(out[-1])
        written.append(Entry("written", number, definition.node, definition.names))
        out.append(written[-1])
        if definition.node.row in SHARED:
            types.append(written[-1])
    return out, written


def move_types(node, number, written, types, out):
    """The inline types of a node. A signature in a module type is the latest type that is written alike there before it, and a value type
    or a function type is the first of its scope that is equal as written; in `types` these are gathered."""
    for ref in references(node):
        if ref.inline:
            is_shared = ref.inline.row in SHARED
            alike = [entry for entry in (types if is_shared else reversed(written)) if entry.node == ref.inline]
            if not alike:
                move_types(ref.inline, number, [], types, out)
                out.append(Entry("inline-type %d" % ref.number, number, ref.inline))
                if is_shared:
                    types.append(out[-1])
            ref.target = Item(alike[0] if alike else out[-1])


def find(stack, ref):
    """The depth and the item that a name denotes, looked for as far as it reaches."""
    for depth, scope in enumerate(stack if ref.reach == "outward" else stack[:1]):
        if (root_space(ref), ref.index.name) in scope.table:
            return depth, scope.table[root_space(ref), ref.index.name]
    return None


def root_space(ref):
    """The space of the root of a path, or of the reference itself where it is none."""
    if not ref.path:
        return ref.space
    return "core instance" if ref.space in CORE_EXPORTED else "instance"


def needs(stack, entry, aliases):
    """The aliases that stand before an entry: the steps of its paths, and what leads to enclosing scopes, where no alias of it stands yet;
    `aliases` has those so far by what they lead to."""
    for ref in references(entry.node):
        if ref.path and ref.space not in ("core type", "core instance"):
            yield from steps(ref, entry.number)
        elif ref.index and ref.index.name is not None and ref.reach == "outward":
            found = find(stack, ref)
            if found and found[0] > 0:
                there = Ref(ref.space, ref.index, reach="place", target=found[1])
                alias = Entry("outer-alias %d" % ref.number, entry.number, Node("alias outer", (Place(ref.index, depth=found[0]), there, ref.space)))
                shared = aliases.setdefault((found[0], id(found[1])), alias)
                ref.target = Item(shared)
                if shared is alias:
                    yield alias


def steps(ref, number):
    """An alias for each name of a path; the last gives the item."""
    instance = ref.root = Ref(root_space(ref), ref.index, reach="own")
    for step, name in enumerate(ref.path):
        kind = ref.space if step + 1 == len(ref.path) else "instance"
        row = "alias core export" if instance.space == "core instance" else "alias export"
        alias = Entry("export-step %d %d" % (ref.number, step), number, Node(row, (instance, name, kind)))
        yield alias
        instance = Ref("instance", ref.index, reach="own", target=Item(alias))
    ref.target = Item(alias)


def inline_export(name, count, written):
    """The export for an inline name of a definition."""
    item = Ref(space_of(written.node), Index(), target=Item(written))
    return Entry("inline-export %d" % count, written.number, Node("export", (name, None, item)))


def plan(scope, stack, entries, written):
    """Sets the entries of a scope in order, with the index of each: inline exports behind all others."""
    aliases = {}
    for entry in entries:
        scope.entries += [*needs(stack, entry, aliases), entry]
    for entry, definition in zip(written, scope.definitions):
        scope.entries += [inline_export(name, count, entry) for count, name in enumerate(definition.exports)]
    counts = {}
    for entry in scope.entries:
        space = space_of(entry.node)
        entry.first = counts.get(space, 0)
        counts[space] = entry.first + declared(entry.node)


# ---- the demands of a scope, in three searches


def register(scope, entries):
    """First: no two items of a space bear one id."""
    for entry in entries:
        for part, names in enumerate(entry.names):
            key = (space_of(entry.node), names.id)
            if names.id is not None and key in scope.table:
                raise Refused("Duplicate", names.offset)
            if names.id is not None:
                scope.table[key] = Item(entry, part)


def refuse_kinds(stack, entries):
    """Second: names that lead outward have a space that an outer alias may have, and no path leads to a core type or a core instance."""
    for ref in [ref for entry in entries for ref in references(entry.node) if ref.index]:
        if ref.path and ref.space in ("core type", "core instance"):
            raise Refused("CoreExportKind", ref.index.offset)
        if not ref.path and ref.index.name is not None and ref.reach == "outward" and ref.space not in ALIASED:
            found = find(stack, ref)
            if found and found[0] > 0:
                raise Refused("OuterKind", ref.index.offset)


def resolve_entry(entry, stack):
    """Third, entry by entry: the roots of paths, then leaf by leaf; inner scopes and core modules in their places."""
    for ref in references(entry.node):
        if ref.path:
            resolve_name(ref.root, stack)
    cases, place = set(), None
    for leaf in direct(entry.node):
        if isinstance(leaf, Ref):
            resolve_reference(leaf, place, stack)
        elif isinstance(leaf, Place):
            place = leaf
        elif isinstance(leaf, Case):
            if leaf.id in cases:
                raise Refused("Duplicate", leaf.offset)
            cases.add(leaf.id)
        elif isinstance(leaf, Scope):
            resolve(leaf, stack)
        elif isinstance(leaf, CoreModule):
            resolve_module(leaf)


def resolve_reference(ref, place, stack):
    if ref.reach == "place":
        resolve_place(ref, place, stack)
    elif not ref.target:
        resolve_name(ref, stack)


def resolve_name(ref, stack):
    if ref.index.name is None:
        return
    found = find(stack, ref)
    if not found:
        raise Refused("Unknown", ref.index.offset)
    ref.target = found[1]


def resolve_place(ref, place, stack):
    """A written outer alias: a scope by its id, or by how many scopes outward it is, which isn't looked at beside a second number."""
    if place.index.name is not None:
        depths = [depth for depth, scope in enumerate(stack) if scope.names.id == place.index.name]
        if not depths:
            raise Refused("OuterComponent", place.offset)
        place.depth = depths[0]
    elif ref.index.name is not None and place.index.number >= len(stack):
        raise Refused("OuterCount", place.offset)
    else:
        place.depth = place.index.number
    if ref.index.name is not None:
        ref.target = stack[place.depth].table.get((ref.space, ref.index.name))
        if not ref.target:
            raise Refused("Unknown", ref.index.offset)


def resolve(scope, around):
    """Gives each reference of a scope in these scopes its index, or refuses by the first demand that isn't met."""
    stack, (entries, written) = [scope] + around, expanded(scope)
    register(scope, written)
    refuse_kinds(stack, entries)
    plan(scope, stack, entries, written)
    for entry in entries:
        resolve_entry(entry, stack)
