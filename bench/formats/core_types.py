"""Core value types, core function types, signatures and module types (WebAssembly text format; Component Model, Type Definitions)."""

from .cursor import OPENING, Cursor, is_numeral
from .model import CoreValue, Definition, Names, Node, Place, Ref, Scope

NUMBER_TYPES = {"i32": 0x7F, "i64": 0x7E, "f32": 0x7D, "f64": 0x7C, "v128": 0x7B}
HEAP_TYPES = {"func": 0x70, "extern": 0x6F}
SHORT_TYPES = {"funcref": 0x70, "externref": 0x6F}
OTHER_TYPES = ("sub", "struct", "array", "cont", "shared")
OTHER_LIMITS = ("i64", "shared")
NULLABLE, NOT_NULLABLE = 0x63, 0x64


# ---- value types


def is_reference_type(c):
    """A whole reference type of this format is next."""
    if c.is_word(*SHORT_TYPES):
        return True
    ahead = 3 if c.is_word("null", ahead=2) else 2
    heap = c.peek(ahead)
    is_heap = c.is_word(*HEAP_TYPES, ahead=ahead) or heap.kind == "id" or is_numeral(heap)
    return c.is_group("ref") and is_heap and c.peek(ahead + 1).kind == ")"


def is_core_value(c):
    """A value type is next: a number type, a word that ends in `ref`, or a group of `ref`."""
    return c.is_word(*NUMBER_TYPES) or (c.peek().kind == "word" and c.peek().value.endswith("ref")) or c.is_group("ref")


def core_value(c, reach="outward"):
    """cval = "i32" | "i64" | "f32" | "f64" | "v128" | rtype"""
    if c.is_word(*NUMBER_TYPES):
        return CoreValue(NUMBER_TYPES[c.bump().value])
    if is_reference_type(c):
        return reference_type(c, reach)
    return other_reference(c)


def reference_type(c, reach):
    """rtype = "funcref" | "externref" | "(" "ref" "null"? ( "func" | "extern" | idx ) ")" """
    if c.is_word(*SHORT_TYPES):
        return CoreValue(SHORT_TYPES[c.bump().value])
    return c.worded("ref", reference_parts, reach)


def reference_parts(c, reach):
    is_null = c.is_word("null")
    if is_null:
        c.words("null")
    if c.is_index():
        return CoreValue(NULLABLE if is_null else NOT_NULLABLE, c.reference("core type", reach))
    heap = HEAP_TYPES[c.bump().value]
    return CoreValue(heap) if is_null else CoreValue(NOT_NULLABLE, heap)


def other_reference(c):
    """Another word that ends in `ref`, or another group of `ref`: never written."""
    c.form(6)
    if c.peek().kind == "(":
        c.worded("ref", skip)
    elif c.peek().kind == "word" and c.peek().value.endswith("ref"):
        c.bump()
    else:
        c.fail()
    return None


def skip(c):
    """The rest of a group: any tokens but reserved ones, in which groups end as they begin."""
    depth = 0
    while depth or not c.is_end():
        if c.peek().kind in ("reserved", "end"):
            c.fail()
        depth += OPENING.get(c.bump().kind, 0)


# ---- function types


def core_function(c):
    """param* result*"""
    params, results = named_function(c)
    return Node("core function type", ([value for _, value in params], results))


def named_function(c):
    """param* result*, the parameters with their names"""
    params = [param for group in c.groups("param", core_params) for param in group]
    return params, [value for group in c.groups("result", core_values) for value in group]


def core_params(c):
    """( id name? | name ) cval | cval*, behind the word of parameters or of locals"""
    if c.peek().kind in ("id", "annotation"):
        names = c.names()
        return [(names, core_value(c, "own"))]
    return [(Names(), value) for value in core_values(c)]


def core_values(c):
    """cval*"""
    out = []
    while is_core_value(c):
        out.append(core_value(c, "own"))
    return out


def core_definition(c):
    """ctdef = "func" param* result*, or another type, which is never written"""
    if c.is_word("func"):
        c.bump()
        return core_function(c)
    c.form(6)
    c.one_of(OTHER_TYPES)
    skip(c)
    return Node("other core type")


# ---- signatures


def core_use(c):
    """tuse = ( "(" "type" idx ")" )? param* result*; beside an index the signature isn't kept."""
    if not c.is_group("type"):
        return Ref("core type", reach="own", inline=core_function(c))
    index = c.worded("type", Cursor.reference, "core type", "own")
    with c.left_out():
        core_function(c)
    return index


def limits(c):
    """limits = num num?"""
    return (c.number(), c.number() if c.peek().kind == "integer" else None)


def other_limits(c):
    """Limits of other memories and tables, never written."""
    c.form(6)
    c.one_of(OTHER_LIMITS)
    skip(c)


def memory_type(c):
    """limits, or what is never written"""
    found = limits(c) if c.peek().kind == "integer" else None
    if found is None or not c.is_end():
        other_limits(c)
    return found


def table_type(c):
    """limits rtype, or what is never written"""
    if c.peek().kind != "integer":
        return (None, other_limits(c))
    found = limits(c)
    if is_reference_type(c):
        return (reference_type(c, "own"), found)
    if c.is_word(*OTHER_LIMITS):
        return (None, other_limits(c))
    other_reference(c)
    skip(c)
    return (None, found)


def global_type(c):
    """gtype = cval | "(" "mut" cval ")" """
    if c.is_group("mut"):
        return (c.worded("mut", core_value, "own"), 1)
    return (core_value(c, "own"), 0)


def signature(c):
    """csig = "func" id? name? tuse | "table" id? name? limits rtype | "memory" id? name? limits | "global" id? name? gtype"""
    word = c.one_of(("func", "table", "memory", "global", "tag"))
    if word == "tag":
        c.form(6)
        skip(c)
        return Node("other entity")
    c.names()
    if word == "func":
        return Node("func entity", (core_use(c),))
    if word == "memory":
        return Node("memory entity", (memory_type(c),))
    return Node(word + " entity", table_type(c) if word == "table" else global_type(c))


# ---- module types, and core types as definitions


def module_type(c, names):
    """mty = ! mdecl*"""
    c.check_depth()
    return Node("module type", (Scope("module type", names, c.many(Cursor.group, module_declaration)),))


def module_declaration(c):
    """mdecl, a line of the table"""
    if not c.is_word(*MODULE_DECLARATIONS):
        c.fail()
    with c.held(c.peek().offset):
        return MODULE_DECLARATIONS[c.peek().value](c)


def module_type_type(c):
    """ "type" id? name? "(" ctdef ")" """
    c.words("type")
    return named_type(c)


def named_type(c):
    """id? name? "(" ctdef ")" """
    names = c.names()
    return Definition(c.group(core_definition), [names])


def module_type_rec(c):
    """ "rec" ( "(" "type" id? name? "(" ctdef ")" ")" )*"""
    c.words("rec")
    return rec_types(c)


def rec_types(c):
    types = c.many(Cursor.worded, "type", named_type)
    return Definition(Node("core rec", ([each.node for each in types],)), [each.names[0] for each in types])


def module_type_alias(c):
    """ "alias" "outer" idx idx "(" "type" id? name? ")" """
    offset = c.words("alias", "outer")
    place, index = Place(c.index(), offset), c.reference("core type", "place")
    return Definition(Node("alias outer", (place, index, "core type")), [c.worded("type", Cursor.names)])


def module_type_import(c):
    """ "import" text text "(" csig ")" """
    c.words("import")
    return Definition(Node("core import", (c.text(), c.text(), c.group(signature))))


def module_type_export(c):
    """ "export" text "(" csig ")"; it holds at the word of its signature."""
    c.words("export")
    name = c.text()
    c.take("(")
    with c.held(c.peek().offset):
        entity = signature(c)
    c.take(")")
    return Definition(Node("core export", (name, entity)))


MODULE_DECLARATIONS = {
    "type": module_type_type,
    "rec": module_type_rec,
    "alias": module_type_alias,
    "import": module_type_import,
    "export": module_type_export,
}


def core_type(c):
    """ctype = "core" "type" id? name? "(" ( "module" mty | ctdef ) ")" """
    c.words("core", "type")
    names = c.names()
    return Definition(c.group(core_type_definition, names), [names])


def core_type_definition(c, names):
    if c.is_word("module"):
        c.bump()
        return module_type(c, names)
    return core_definition(c)


def core_rec(c):
    """crec = "core" "rec" ( "(" "type" id? name? "(" ctdef ")" ")" )*"""
    c.words("core", "rec")
    return rec_types(c)
