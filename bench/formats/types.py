"""Types, aliases, imports and exports, and the declarations of types of components and instances (Component Model, Type Definitions)."""

from .core_types import core_rec, core_type, core_value, module_type
from .cursor import Cursor
from .model import ALIASED, CORE_EXPORTED, EXPORTED, Case, Definition, Names, Node, Place, Ref, Scope
from .tokens import is_utf8

PRIMITIVES = {
    "bool": 0x7F, "s8": 0x7E, "u8": 0x7D, "s16": 0x7C, "u16": 0x7B, "s32": 0x7A, "u32": 0x79, "s64": 0x78, "u64": 0x77, "f32": 0x76,
    "float32": 0x76, "f64": 0x75, "float64": 0x75, "char": 0x74, "string": 0x73, "error-context": 0x64,
}
ATTRIBUTES = ("implements", "version-suffix", "external-id")


# ---- value types


def is_value(c):
    return c.is_index() or c.is_word(*PRIMITIVES) or c.is_group(*COMPOUNDS)


def value(c):
    """val = idx | prim | "(" ! nonprim ")" """
    return c.reference("type") if c.is_index() else inline_value(c)


def inline_value(c):
    """prim | "(" ! nonprim ")" """
    if c.is_word(*PRIMITIVES):
        return PRIMITIVES[c.bump().value]
    return Ref("type", inline=c.group(compound))


def optional_value(c):
    return value(c) if is_value(c) else None


def compound(c):
    """! nonprim, a line of the table"""
    c.check_depth()
    if not c.is_word(*COMPOUNDS):
        c.fail()
    return COMPOUNDS[c.peek().value](c, c.bump().value)


def named_value(c):
    """text val"""
    return (c.text(), value(c))


def record_type(c, word):
    """ "record" ( "(" "field" text val ")" )*"""
    return Node(word, (c.many(Cursor.worded, "field", named_value),))


def variant_type(c, word):
    """ "variant" ( "(" "case" id? text val? ")" )*"""
    return Node(word, (c.many(Cursor.worded, "case", variant_case),))


def variant_case(c):
    """id? text val?"""
    token = c.bump() if c.peek().kind == "id" else None
    return (token and Case(token.value, token.offset), c.text(), optional_value(c))


def list_type(c, word):
    """ "list" val num?"""
    element = value(c)
    return Node("fixed-length list", (element, c.number())) if c.peek().kind == "integer" else Node(word, (element,))


def map_type(c, word):
    """ "map" val val, which is never written"""
    c.form(2)
    return Node(word, (value(c), value(c)))


def tuple_type(c, word):
    """ "tuple" val*"""
    return Node(word, (c.many(value),))


def texts_type(c, word):
    """ "flags" text* | "enum" text*"""
    return Node(word, (c.many(Cursor.text),))


def option_type(c, word):
    """ "option" val"""
    return Node(word, (value(c),))


def result_type(c, word):
    """ "result" val? ( "(" "error" val ")" )?"""
    ok = optional_value(c)
    return Node(word, (ok, c.worded("error", value) if c.is_group("error") else None))


def handle_type(c, word):
    """ "own" idx | "borrow" idx"""
    return Node(word, (c.reference("type"),))


def optional_type(c, word):
    """ "stream" val? | "future" val?"""
    return Node(word, (optional_value(c),))


COMPOUNDS = {
    "record": record_type,
    "variant": variant_type,
    "list": list_type,
    "map": map_type,
    "tuple": tuple_type,
    "flags": texts_type,
    "enum": texts_type,
    "option": option_type,
    "result": result_type,
    "own": handle_type,
    "borrow": handle_type,
    "stream": optional_type,
    "future": optional_type,
}


# ---- type definitions


def function_type(c):
    """fty = "async"? ( "(" "param" text val ")" )* ( "(" "result" val ")" )?"""
    is_async = optional_async(c)
    params = c.groups("param", named_value)
    return Node("function", (is_async, params, optional_result(c)))


def optional_async(c):
    """ "async"?, as a number"""
    is_async = c.is_word("async")
    if is_async:
        c.bump()
    return int(is_async)


def optional_result(c):
    """( "(" "result" val ")" )?"""
    return c.worded("result", value) if c.is_group("result") else None


def component_type(c, names=Names()):
    """cty = ! ( tdecl | import )*"""
    return scope_type(c, "component type", names)


def instance_type(c, names=Names()):
    """ity = ! tdecl*"""
    return scope_type(c, "instance type", names)


def scope_type(c, kind, names):
    c.check_depth()
    return Node(kind, (Scope(kind, names, c.many(Cursor.group, declaration, kind)),))


def resource_type(c):
    """ "resource" "(" "rep" cval ")" ( "(" "dtor" cref("func") ")" )?"""
    rep = c.worded("rep", core_value)
    return Node("resource", (rep, c.worded("dtor", core_reference, "func") if c.peek().kind == "(" else None))


def core_reference(c, kind):
    """cref(k) = idx | "(" "core" k idx text? ")" | legacy: "(" k idx text? ")" """
    if c.is_index():
        return c.reference("core " + kind)
    is_older = c.legacy and not c.is_word("core", ahead=1)
    return c.worded(kind, Cursor.core_path, "core " + kind) if is_older else core_group(c, kind)


def core_group(c, kind):
    """ "(" "core" k idx text? ")" """
    return c.worded("core " + kind, Cursor.core_path, "core " + kind)


def type_definition(c, names):
    """typedef = prim | "(" "func" fty ")" | "(" "component" cty ")" | "(" "instance" ity ")" | "(" "resource" .. ")" | "(" ! nonprim ")" """
    if c.is_word(*PRIMITIVES):
        return Node("primitive", (PRIMITIVES[c.bump().value],))
    return c.group(grouped_type, names)


def grouped_type(c, names):
    if c.is_word("func"):
        c.bump()
        return function_type(c)
    if c.is_word("component", "instance"):
        return scope_type(c, c.bump().value + " type", names)
    if c.is_word("resource"):
        c.bump()
        return resource_type(c)
    return compound(c)


def type_declaration(c):
    """ "type" id? name? typedef"""
    c.words("type")
    names = c.names()
    return Definition(type_definition(c, names), [names])


# ---- aliases


def space_words(c, spaces):
    """The words of one of these spaces."""
    if c.is_word("core") and any(space.startswith("core ") for space in spaces):
        c.words("core")
        return "core " + c.one_of([space.removeprefix("core ") for space in spaces if space.startswith("core ")])
    return c.one_of([space for space in spaces if not space.startswith("core ")])


def named_space(c, spaces):
    return space_words(c, spaces), c.names()


def alias(c):
    """alias, a line of the table, or "alias" "outer" idx idx "(" okind id? name? ")" """
    offset = c.words("alias")
    if c.is_word(*EXPORT_ALIASES):
        row, space, kinds = EXPORT_ALIASES[c.peek().value]
        c.words(*row.split()[1:])
        item, name = c.reference(space), c.text()
        kind, names = c.group(named_space, kinds)
        return Definition(Node(row, (item, name, kind)), [names])
    c.words("outer")
    place, index = Place(c.index(), offset), c.reference(None, "place")
    kind, names = c.group(named_space, ALIASED)
    index.space = kind
    return Definition(Node("alias outer", (place, index, kind)), [names])


EXPORT_ALIASES = {
    # "alias" "export" idx text "(" ekind id? name? ")"
    "export": ("alias export", "instance", EXPORTED),
    # "alias" "core" "export" idx text "(" "core" ckind id? name? ")"
    "core": ("alias core export", "core instance", CORE_EXPORTED),
}


# ---- imports and exports


def plain_name(c):
    """text | "(" "interface" text ")" """
    return c.text() if c.peek().kind == "string" else c.worded("interface", Cursor.text)


def extern_name(c):
    """ename = ( text | "(" "interface" text ")" ) attr*, each attribute at most once; a name with one is never written"""
    name, left = plain_name(c), list(ATTRIBUTES)
    while c.is_group(*left):
        c.form(1)
        word = c.peek(1).value
        left.remove(word)
        c.worded(word, Cursor.text)
    return name


def is_name_group(c, word):
    """A whole group of this word with a name without attributes is next."""
    ahead = 4 if c.is_word("interface", ahead=3) and c.peek(2).kind == "(" else 2
    name, behind = c.peek(ahead), [c.peek(ahead + each).kind for each in range(1, ahead // 2 + 1)]
    return c.is_group(word) and name.kind == "string" and is_utf8(name.value) and all(kind == ")" for kind in behind)


def name_group(c, word):
    """iexp = "(" "export" ( text | "(" "interface" text ")" ) ")", iimp = "(" "import" ( text | "(" "interface" text ")" ) ")" """
    return c.worded(word, plain_name)


def inline_exports(c):
    """iexp*"""
    out = []
    while is_name_group(c, "export"):
        out.append(name_group(c, "export"))
    return out


def type_use(c, contents):
    """use(x) = "(" "type" idx text* ")" | x, a reference where the end of the group or a text stands behind the index"""
    return type_reference(c) if is_type_use(c) else Ref("type", inline=contents(c))


def is_type_use(c):
    return c.is_group("type") and c.ends_index(2)


def type_reference(c):
    return c.worded("type", Cursor.item_path, "type")


def function_use(c):
    """use(fty), where no function type begins with a type"""
    return type_reference(c) if c.is_group("type") else Ref("type", inline=function_type(c))


def module_use(c):
    """cuse(mty) = "(" "type" idx text? ")" | mty"""
    if is_type_use(c):
        return c.worded("type", Cursor.core_path, "core type")
    return Ref("core type", inline=module_type(c, Names()))


def value_use(c):
    """valuse = "(" "type" idx ")" | prim | "(" ! nonprim ")", which is never written"""
    c.form(3)
    return c.worded("type", Cursor.reference, "type") if c.is_group("type") else inline_value(c)


def bound(c):
    """ "eq" idx | "sub" "resource" """
    if c.is_word("eq"):
        c.bump()
        return Node("eq", (c.reference("type"),))
    c.words("sub", "resource")
    return Node("sub resource")


def signature(c, is_named=True):
    """sig, or signn without names: the words of a space, and its line of the table"""
    space = space_words(c, EXPORTED)
    names = c.names() if is_named else Names()
    if space == "type":
        return c.group(bound), names
    return Node(space + " description", (SIGNATURES[space](c),)), names


SIGNATURES = {
    "core module": module_use,
    "func": function_use,
    "component": lambda c: type_use(c, component_type),
    "instance": lambda c: type_use(c, instance_type),
    "value": value_use,
}


def external(c, row):
    """import = "import" ename "(" sig ")", and "export" ename "(" sig ")" of a type"""
    c.words(row.split()[0])
    name = extern_name(c)
    description, names = c.group(signature)
    return Definition(Node(row, (name, description)), [names])


def item(c):
    """eref = "(" ekind idx text* ")" """
    return c.item_path(space_words(c, EXPORTED))


def export_parts(c, is_bundled=False):
    """ "export" id? name? ename eref ( "(" signn ")" )?; in a bundle the description isn't kept"""
    c.words("export")
    names, name, exported, description = c.names(), extern_name(c), c.group(item), None
    if c.peek().kind == "(":
        with c.left_out(is_bundled):
            description = c.group(signature, False)[0]
    return (name, exported) if is_bundled else Definition(Node("export", (name, description, exported)), [names])


# ---- declarations


def declaration(c, kind):
    """tdecl, and import in the type of a component: a line of the table"""
    words = "core %s" % c.peek(1).value if c.is_word("core") else c.peek().value
    if c.peek().kind != "word" or words not in DECLARATIONS or (words == "import" and kind == "instance type"):
        c.fail()
    with c.held(c.peek().offset):
        return DECLARATIONS[words](c)


DECLARATIONS = {
    "core type": core_type,
    "core rec": core_rec,
    "type": type_declaration,
    "alias": alias,
    "export": lambda c: external(c, "export type"),
    "import": lambda c: external(c, "import"),
}
