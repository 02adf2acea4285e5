"""The fields of a component, and a whole text (Component Model, Component Definitions and the sections of each field)."""

from .canons import built_in, lift
from .core_fields import core_field
from .core_types import core_rec, core_type
from .cursor import Cursor
from .model import CORE_EXPORTED, CoreModule, Definition, Names, Node, Ref, Scope
from .types import (
    alias, component_type, export_parts, external, function_use, inline_exports, instance_type, is_name_group, item, module_use, name_group,
    space_words, type_definition, type_use,
)
from .tokens import Refused


# ---- imports in their short form


def imported(c, row, names, exports, use):
    """iimp and what describes the import: the import that it abbreviates."""
    name = name_group(c, "import")
    return Definition(Node("import", (name, Node(row + " description", (use(c),)))), [names], exports)


# ---- core modules and core instances


def core_module(c):
    """ "core" "module" id? name? iexp* ( iimp cuse(mty) | cfield* )"""
    c.check_depth()
    c.words("core", "module")
    names, exports = c.names(), inline_exports(c)
    if is_name_group(c, "import"):
        return imported(c, "core module", names, exports, module_use)
    return Definition(Node("core module", (CoreModule(c.many(core_field), names),)), [names], exports)


def core_instance(c):
    """ "core" "instance" id? name? ( "(" "instantiate" ior("module") carg* ")" | cbexp* )"""
    c.words("core", "instance")
    names = c.names()
    node = c.worded("instantiate", core_instantiate) if c.is_group("instantiate") else core_bundle(c)
    return Definition(node, [names])


def core_instantiate(c):
    return Node("core instantiate", (index_or_item(c, "module", "core module"), c.many(Cursor.worded, "with", core_argument)))


def index_or_item(c, word, space):
    """ior(k) = idx | "(" k idx text* ")" """
    return c.reference(space) if c.is_index() else c.worded(word, Cursor.item_path, space)


def core_argument(c):
    """carg = "(" "with" text "(" "instance" ( idx text? | cbexp* ) ")" ")", a reference where the group ends or a text stands behind the index"""
    return (c.text(), c.worded("instance", core_argument_item))


def core_argument_item(c):
    return c.core_path("core instance") if c.ends_index(0) else Ref("core instance", bundle=core_bundle(c))


def core_bundle(c):
    """cbexp*"""
    return Node("core bundle", (c.many(Cursor.worded, "export", core_bundle_export),))


def core_bundle_export(c):
    """cbexp = "(" "export" text "(" ckind idx text? ")" ")" """
    return (c.text(), c.group(core_item))


def core_item(c):
    """ckind idx text?"""
    return c.core_path("core " + c.one_of([space.removeprefix("core ") for space in CORE_EXPORTED]))


# ---- components and instances


def component(c):
    """ "component" id? name? iexp* ( iimp use(cty) | field* )"""
    c.check_depth()
    c.words("component")
    names, exports = c.names(), inline_exports(c)
    if is_name_group(c, "import"):
        return imported(c, "component", names, exports, lambda c: type_use(c, component_type))
    return Definition(Node("component", (Scope("component", names, c.many(field)),)), [names], exports)


def instance(c):
    """ "instance" id? name? iexp* ( iimp use(ity) | "(" "instantiate" ior("component") arg* ")" | export* )"""
    c.words("instance")
    names, exports = c.names(), inline_exports(c)
    if is_name_group(c, "import"):
        return imported(c, "instance", names, exports, lambda c: type_use(c, instance_type))
    node = c.worded("instantiate", instantiate) if c.is_group("instantiate") else bundle(c)
    return Definition(node, [names], exports)


def instantiate(c):
    return Node("instantiate", (index_or_item(c, "component", "component"), c.many(Cursor.worded, "with", argument)))


def argument(c):
    """arg = "(" "with" text ( eref | "(" "instance" export* ")" ) ")", a reference where an index follows the words of its kind"""
    name = c.text()
    return (name, c.group(item) if is_item(c) else Ref("instance", bundle=c.worded("instance", bundle)))


def is_item(c):
    if c.is_group("core"):
        return c.is_word("module", ahead=2) and c.is_index(3)
    return c.is_group("func", "value", "type", "component", "instance") and c.is_index(2)


def bundle(c):
    """export*"""
    return Node("bundle", (c.many(Cursor.group, export_parts, True),))


# ---- types, functions, starts


def type_field(c):
    """ "type" id? name? iexp* typedef"""
    c.words("type")
    names, exports = c.names(), inline_exports(c)
    return Definition(type_definition(c, names), [names], exports)


def core_func(c):
    """ "core" "func" id? name? "(" ( "alias" "core" "export" idx text | "canon" builtin ) ")" """
    c.words("core", "func")
    names = c.names()
    return Definition(c.group(core_func_of), [names])


def core_func_of(c):
    if c.is_word("alias"):
        c.words("alias", "core", "export")
        return Node("alias core export", (c.reference("core instance"), c.text(), "core func"))
    c.words("canon")
    return built_in(c)


def func(c):
    """ "func" id? name? iexp* ( iimp use(fty) | "(" "alias" "export" idx text ")" | use(fty) "(" "canon" lift ")" )"""
    c.words("func")
    names, exports = c.names(), inline_exports(c)
    if is_name_group(c, "import"):
        return imported(c, "func", names, exports, function_use)
    if c.is_group("alias"):
        return Definition(c.group(func_alias), [names], exports)
    return Definition(Node("lift", (function_use(c), *c.worded("canon", lift))), [names], exports)


def func_alias(c):
    c.words("alias", "export")
    return Node("alias export", (c.reference("instance"), c.text(), "func"))


def canon(c):
    """ "canon" lift "(" "func" id? name? use(fty) ")" | "canon" builtin "(" "core" "func" id? name? ")" """
    c.words("canon")
    if c.is_word("lift"):
        lifted = lift(c)
        names, ty = c.worded("func", lambda c: (c.names(), function_use(c)))
        return Definition(Node("lift", (ty, *lifted)), [names])
    return Definition(built_in(c), [c.worded("core func", Cursor.names)])


def start(c):
    """ "start" idx ( "(" "value" idx text* ")" )* ( "(" "result" "(" "value" id? ")" ")" )*"""
    c.words("start")
    function, values = c.reference("func"), c.groups("value", Cursor.item_path, "value")
    results = c.many(Cursor.worded, "result", Cursor.worded, "value", optional_id)
    return Definition(Node("start", (function, values, len(results))), results)


def optional_id(c):
    token = c.bump() if c.peek().kind == "id" else None
    return Names(token.value, token.offset) if token else Names()


# ---- custom sections


def custom(c):
    """ "(@custom" text string* ")" """
    c.take("annotation", "@custom")
    out = Node("custom", (c.text(), b"".join(c.many(Cursor.string))))
    c.take(")")
    return Definition(out)


PRODUCER_WORDS = ("language", "sdk", "processed-by")


def producers(c):
    """ "(@producers" ( "(" ("language" | "sdk" | "processed-by") text text ")" )* ")" """
    c.take("annotation", "@producers")
    made = c.many(Cursor.group, lambda c: (c.one_of(PRODUCER_WORDS), c.text(), c.text()))
    c.take(")")
    return Definition(Node("producers", tuple([pair[1:] for pair in made if pair[0] == word] for word in PRODUCER_WORDS)))


# ---- fields and texts

CORE_FIELDS = {"module": core_module, "instance": core_instance, "type": core_type, "rec": core_rec, "func": core_func}
FIELDS = {
    "component": component,
    "instance": instance,
    "alias": alias,
    "type": type_field,
    "func": func,
    "import": lambda c: external(c, "import"),
    "export": export_parts,
    "start": start,
    "canon": canon,
}
NOTES = {"@custom": custom, "@producers": producers}


def field(c):
    """field, a line of the tables"""
    if c.peek().kind == "annotation":
        return NOTES[c.peek().value](c) if c.peek().value in NOTES else c.fail()
    return c.group(grouped_field)


def grouped_field(c):
    with c.held(c.peek().offset):
        if c.is_word("core") and c.is_word(*CORE_FIELDS, ahead=1):
            return CORE_FIELDS[c.peek(1).value](c)
        return FIELDS[c.peek().value](c) if c.is_word(*FIELDS) else c.fail()


def whole(c):
    """wat = "(" "component" id? name? ( field* | "binary" string* ) ")" and a core module: a scope, or bytes"""
    if not c.is_group("component"):
        return core_text(c)
    out = c.worded("component", whole_component)
    ends(c)
    return out


def ends(c):
    if c.peek().kind != "end":
        c.fail()


def whole_component(c):
    names = c.names()
    return strings(c) if c.is_word("binary") else Scope("component", names, c.many(field))


def strings(c):
    """ "binary" string*"""
    c.words("binary")
    return b"".join(c.many(Cursor.string))


def core_text(c):
    """ "(" "module" id? name? ( cfield* | "binary" string* ) ")" | cfield cfield*: a core module is refused at its word, or at 0"""
    offset = 0
    if c.is_group("module"):
        offset = c.peek(1).offset
        c.worded("module", whole_module)
        ends(c)
    else:
        core_field(c)
        c.many(core_field)
        ends(c)
    raise Refused("Module", offset)


def whole_module(c):
    c.names()
    return strings(c) if c.is_word("binary") else c.many(core_field)
