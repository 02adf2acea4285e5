"""Random texts of components, in which few names stand for many things; a few of the texts are spoilt."""

import random

from .canons import BUILT_INS, GROUPED_OPTIONS, OPTIONS, UNWRITTEN_BUILT_INS, UNWRITTEN_OPTIONS
from .core_fields import CONSTANT, INDEXED, PLAIN
from .model import ALIASED, CORE_EXPORTED, EXPORTED
from .types import ATTRIBUTES, COMPOUNDS, PRIMITIVES

CORE_VALUES = ("i32", "i64", "f32", "f64", "v128", "funcref", "externref", "(ref func)", "(ref null extern)")
SPOILS = ("x", "(", ")", '"s"', "$a", "0", "(type", "func", "(@custom", "core", "(export", "async")


class Random:
    """Random texts: each row is a call, whose number says how deep its types may go."""

    def __init__(self, seed):
        self.random = random.Random(seed)

    def is_so(self, chance):
        return self.random.random() < chance

    def one(self, choices):
        return self.random.choice(list(choices))

    def some(self, most, part, *arguments):
        return " ".join(part(*arguments) for _ in range(self.random.randrange(most)))

    def maybe(self, chance, part):
        return part if self.is_so(chance) else ""

    def any_of(self, rows):
        """One of these rows, each with its arguments."""
        row, *arguments = self.one(rows)
        return row(*arguments)

    # ---- names and references

    def index(self):
        return "$" + self.one("abcd") if self.is_so(0.4) else str(self.random.randrange(4))

    def label(self):
        return '(@name "%s")' % self.one(["n", ""])

    def names(self, chance=0.5):
        return " ".join([self.maybe(chance, "$" + self.one("abcd")), self.maybe(0.15, self.label())])

    def path(self, most=3):
        return self.index() + (" " + " ".join('"p"' for _ in range(self.random.randrange(1, most))) if self.is_so(0.15) else "")

    def text_name(self):
        return '"%s"' % self.one(["e", "f", ""])

    def plain_name(self):
        return self.text_name() if self.is_so(0.85) else '(interface "i")'

    def extern_name(self):
        return self.plain_name() + (self.some(3, lambda: ' (%s "a")' % self.one(ATTRIBUTES)) if self.is_so(0.03) else "")

    def inline_exports(self):
        return self.some(3, lambda: "(export %s)" % self.plain_name()) if self.is_so(0.25) else ""

    def inline_import(self):
        return "(import %s)" % self.plain_name()

    # ---- types

    def value(self, depth):
        if self.is_so(0.35):
            return self.index()
        if depth <= 0 or self.is_so(0.5):
            return self.one(PRIMITIVES)
        return "(%s)" % self.compound(depth - 1)

    def optional_value(self, depth):
        return self.maybe(0.6, self.value(depth))

    def compound(self, depth):
        word = self.one(COMPOUNDS)
        if word == "map" and self.is_so(0.9):
            word = "list"
        value, optional = self.value(depth), self.optional_value(depth)
        return {
            "record": lambda: "record " + self.some(3, lambda: '(field "x" %s)' % self.value(depth)),
            "variant": lambda: "variant " + self.some(3, self.case, depth),
            "list": lambda: "list %s %s" % (value, self.maybe(0.2, "3")),
            "map": lambda: "map %s %s" % (value, value),
            "tuple": lambda: "tuple " + self.some(3, self.value, depth),
            "flags": lambda: 'flags "p" "q"',
            "enum": lambda: 'enum "p"',
            "option": lambda: "option " + value,
            "result": lambda: "result %s %s" % (optional, self.maybe(0.5, "(error %s)" % value)),
            "own": lambda: "own " + self.index(),
            "borrow": lambda: "borrow " + self.index(),
            "stream": lambda: "stream " + optional,
            "future": lambda: "future " + optional,
        }[word]()

    def case(self, depth):
        return '(case %s "x" %s)' % (self.maybe(0.4, "$" + self.one("ab")), self.optional_value(depth))

    def function(self, depth):
        params = self.some(3, lambda: '(param "p" %s)' % self.value(depth))
        return " ".join([self.maybe(0.1, "async"), params, self.maybe(0.5, "(result %s)" % self.value(depth))])

    def definition(self, depth):
        if depth <= 0 or self.is_so(0.2):
            return self.one(PRIMITIVES)
        return "(%s)" % self.any_of([
            (lambda: "func " + self.function(depth),),
            (self.scope_type, "component", depth - 1),
            (self.scope_type, "instance", depth - 1),
            (self.resource,),
            (self.compound, depth),
            (self.compound, depth),
        ])

    def scope_type(self, word, depth):
        return "%s %s" % (word, self.declarations(word, depth))

    def declarations(self, word, depth):
        return self.some(4, self.declaration, word, depth)

    def declaration(self, word, depth):
        rows = [(self.alias,), (self.type_definition, depth), (self.external, "export", depth), (self.core_type, depth), (self.core_rec,)]
        return self.any_of(rows + [(self.external, "import", depth)] * (2 * (word == "component")))

    def resource(self):
        return "resource (rep %s) %s" % (self.core_value(), self.maybe(0.4, "(dtor %s)" % self.core_reference("func")))

    def type_definition(self, depth, exports=""):
        return "(type %s %s %s)" % (self.names(), exports, self.definition(depth))

    # ---- core types

    def core_value(self):
        if self.is_so(0.02):
            return self.one(["anyref", "(ref any)"])
        return "(ref %s %s)" % (self.maybe(0.5, "null"), self.index()) if self.is_so(0.25) else self.one(CORE_VALUES)

    def core_params(self, word="param"):
        if self.is_so(0.3):
            return "(%s %s %s)" % (word, self.one(["$a", "$b", self.label(), "$c " + self.label()]), self.core_value())
        return "(%s %s)" % (word, self.some(3, self.core_value))

    def core_function(self):
        return "%s %s" % (self.some(3, self.core_params), self.some(3, lambda: "(result %s)" % self.some(3, self.core_value)))

    def core_definition(self):
        return "(struct)" if self.is_so(0.02) else "(func %s)" % self.core_function()

    def core_type(self, depth):
        return "(core type %s %s)" % (self.names(), self.core_definition() if self.is_so(0.5) else "(module %s)" % self.module_declarations())

    def core_types(self):
        return self.some(3, lambda: "(type %s %s)" % (self.names(), self.core_definition()))

    def core_rec(self):
        return "(core rec %s)" % self.core_types()

    def module_declarations(self):
        return self.some(5, self.module_declaration)

    def module_declaration(self):
        return self.one([
            "(type %s %s)" % (self.names(), self.core_definition()),
            "(rec %s)" % self.core_types(),
            "(alias outer %s %s (type %s))" % (self.place(), self.index(), self.names()),
            '(import "a" "b" (%s))' % self.core_signature(),
            '(import "a" "b" (%s))' % self.core_signature(),
            '(export "a" (%s))' % self.core_signature(),
        ])

    def core_signature(self):
        if self.is_so(0.02):
            return self.one(["tag", "memory i64 1", "table 1 anyref"])
        word = self.one(["func", "func", "table", "memory", "global"])
        return "%s %s %s" % (word, self.names(), self.core_item(word))

    def core_item(self, word):
        return {
            "func": lambda: self.core_use(),
            "table": lambda: "1 %s %s" % (self.maybe(0.5, "2"), self.one(["funcref", "(ref null func)", "(ref %s)" % self.index()])),
            "memory": lambda: "1 " + self.maybe(0.5, "2"),
            "global": lambda: self.core_value() if self.is_so(0.5) else "(mut %s)" % self.core_value(),
        }[word]()

    def core_use(self):
        return "%s %s" % (self.maybe(0.4, "(type %s)" % self.index()), self.maybe(0.5, self.core_function()))

    # ---- imports, exports and aliases

    def place(self):
        return self.one(["$" + self.one("abcd"), str(self.random.randrange(3))])

    def alias(self):
        row = self.random.randrange(3)
        if row == 0:
            return "(alias export %s %s (%s %s))" % (self.index(), self.text_name(), self.one(EXPORTED), self.names())
        if row == 1:
            return "(alias core export %s %s (%s %s))" % (self.index(), self.text_name(), self.one(CORE_EXPORTED), self.names())
        return "(alias outer %s %s (%s %s))" % (self.place(), self.index(), self.one(ALIASED + ("type",)), self.names())

    def type_use(self, inline):
        return "(type %s)" % self.path() if self.is_so(0.5) else inline

    def described(self, space, depth):
        return {
            "core module": lambda: self.type_use(self.module_declarations()),
            "func": lambda: self.type_use(self.function(depth)),
            "component": lambda: self.type_use(self.declarations("component", depth - 1)),
            "instance": lambda: self.type_use(self.declarations("instance", depth - 1)),
            "value": lambda: self.one(PRIMITIVES),
            "type": lambda: "(%s)" % self.one(["eq " + self.index(), "sub resource"]),
        }[space]()

    def signature(self, is_named, depth):
        space = self.one(EXPORTED)
        if space == "value" and self.is_so(0.9) or depth < 0:
            space = "func"
        return "%s %s %s" % (space, self.names() if is_named else "", self.described(space, depth))

    def external(self, word, depth):
        return "(%s %s (%s))" % (word, self.extern_name(), self.signature(True, depth))

    def item(self):
        return "(%s %s)" % (self.one(EXPORTED), self.path())

    def export(self, depth):
        return "(export %s %s %s %s)" % (self.names(0.3), self.extern_name(), self.item(), self.maybe(0.3, "(%s)" % self.signature(False, depth)))

    # ---- instances

    def core_bundle(self):
        return self.some(3, lambda: '(export "e" (%s %s))' % (self.one(CORE_EXPORTED).removeprefix("core "), self.path(2)))

    def core_argument(self):
        return '(with "a" (instance %s))' % (self.index() if self.is_so(0.5) else self.core_bundle())

    def core_instance(self):
        if self.is_so(0.4):
            return "(core instance %s %s)" % (self.names(), self.core_bundle())
        module = self.index() if self.is_so(0.7) else "(module %s)" % self.path()
        return "(core instance %s (instantiate %s %s))" % (self.names(), module, self.some(3, self.core_argument))

    def bundle(self, depth):
        return self.some(3, self.export, depth)

    def argument(self, depth):
        return '(with "a" %s)' % (self.item() if self.is_so(0.6) else "(instance %s)" % self.bundle(depth))

    def instance(self, depth):
        if self.is_so(0.3):
            contents = self.inline_import() + self.described("instance", depth)
        elif self.is_so(0.5):
            component = self.index() if self.is_so(0.7) else "(component %s)" % self.path()
            contents = "(instantiate %s %s)" % (component, self.some(3, self.argument, depth))
        else:
            contents = self.bundle(depth)
        return "(instance %s %s %s)" % (self.names(), self.inline_exports(), contents)

    # ---- functions

    def core_reference(self, kind):
        return self.index() if self.is_so(0.6) else "(core %s %s)" % (kind, self.path(2))

    def option(self):
        word = self.one([*OPTIONS, *GROUPED_OPTIONS])
        if word in UNWRITTEN_OPTIONS and self.is_so(0.95):
            word = "async"
        kind = {"memory": "memory", "core-type": "type"}.get(word, "func")
        return word if word in OPTIONS else "(%s %s)" % (word, self.core_reference(kind))

    def options(self):
        return self.some(3, self.option)

    def part(self, part, depth):
        """What stands behind the word of a built-in, by the name of its row."""
        return {
            "lowered": lambda: "(func %s)" % self.path(),
            "options": self.options,
            "type_index": lambda: self.index() if self.is_so(0.7) else "(type %s)" % self.path(),
            "core_type_index": lambda: self.core_reference("type"),
            "core_table": lambda: self.core_reference("table"),
            "optional_async": lambda: self.maybe(0.5, "async"),
            "optional_result": lambda: self.maybe(0.5, "(result %s)" % self.value(depth)),
            "core_value": self.core_value,
            "number": lambda: "3",
            "memory_group": lambda: "(memory %s)" % self.core_reference("memory"),
        }[part.__name__]()

    def built_in(self, depth):
        word = self.one(BUILT_INS)
        if word in UNWRITTEN_BUILT_INS and self.is_so(0.95):
            word = "lower"
        return "%s %s" % (word, " ".join(self.part(part, depth) for part in BUILT_INS[word]))

    def core_func(self, depth):
        if self.is_so(0.3):
            return "(core func %s (alias core export %s %s))" % (self.names(), self.index(), self.text_name())
        if self.is_so(0.3):
            return "(canon %s (core func %s))" % (self.built_in(depth), self.names())
        return "(core func %s (canon %s))" % (self.names(), self.built_in(depth))

    def lift(self):
        return "lift (core func %s) %s" % (self.path(2), self.options())

    def func(self, depth):
        use = self.described("func", depth)
        if self.is_so(0.2):
            return "(canon %s (func %s %s))" % (self.lift(), self.names(), use)
        alias, lifted = "(alias export %s %s)" % (self.index(), self.text_name()), "%s (canon %s)" % (use, self.lift())
        contents = self.one([self.inline_import() + use, alias, lifted])
        return "(func %s %s %s)" % (self.names(), self.inline_exports(), contents)

    def start(self):
        values = self.some(3, lambda: "(value %s)" % self.path())
        results = self.some(3, lambda: "(result (value %s))" % self.maybe(0.5, "$" + self.one("abcd")))
        return "(start %s %s %s)" % (self.index(), values, results)

    # ---- core modules

    def core_module(self):
        if self.is_so(0.3):
            contents = self.inline_import() + self.described("core module", 1)
        else:
            contents = self.some(6, self.core_field) if self.is_so(0.7) else ""
        return "(core module %s %s %s)" % (self.names(), self.inline_exports(), contents)

    def core_field(self):
        if self.is_so(0.02):
            return self.one(["(data)", "(start 0)", '(@custom "x")', "(memory i64 1)", "(func block)"])
        word = self.one(["type", "import", "func", "func", "table", "memory", "global", "export"])
        if word == "type":
            return "(type %s %s)" % (self.names(0.3), self.core_definition())
        if word == "import":
            return '(import "a" "b" (%s))' % self.core_signature()
        if word == "export":
            return '(export "e" (%s %s))' % (self.one(["func", "table", "memory", "global"]), self.index())
        is_import = self.is_so(0.15)
        head = "%s %s %s" % (self.names(0.3), self.maybe(0.2, '(export "e")'), '(import "a" "b")' if is_import else "")
        body = {"func": self.some(3, self.core_params, "local") + self.instructions(2), "global": self.instructions(1)}.get(word, "")
        return "(%s %s %s %s)" % (word, head, self.core_item(word), "" if is_import else body)

    def instructions(self, depth):
        return self.some(4, self.instruction, depth)

    def instruction(self, depth):
        word = self.one([*PLAIN, *INDEXED, *CONSTANT])
        operand = self.index() if word in INDEXED else self.one(["-1", "64", "0x7fff_ffff"]) if word in CONSTANT else ""
        return "%s %s" % (word, operand) if self.is_so(0.6) else "(%s %s %s)" % (word, operand, self.instructions(depth - 1) if depth else "")

    # ---- fields and texts

    def note(self):
        return self.one(['(@custom "x" "y")', '(@producers (sdk "a" "b") (language "c" "d"))'])

    def field(self, depth):
        if self.is_so(0.3):
            return self.any_of([(self.start,), (self.core_rec,), (self.note,), (self.inner_component, depth - 1), (self.inner_component, depth - 1)])
        return self.any_of([
            (self.alias,),
            (self.external, "import", depth),
            (self.export, depth),
            (self.type_definition, depth, self.inline_exports()),
            (self.func, depth),
            (self.instance, depth),
            (self.core_instance,),
            (self.core_func, depth),
            (self.core_type, depth),
            (self.core_module,),
        ])

    def inner_component(self, depth):
        if self.is_so(0.2):
            contents = self.inline_import() + self.described("component", depth)
        else:
            contents = self.some(6, self.field, depth) if depth > 0 else ""
        return "(component %s %s %s)" % (self.names(), self.inline_exports(), contents)

    def text(self):
        words = ("(component %s %s)" % (self.names(), self.some(7, self.field, 3))).split()
        if self.is_so(0.15):
            at = self.random.randrange(len(words))
            words[at : at + self.random.randrange(2)] = [self.one(SPOILS)]
        return " ".join(words).replace("( ", "(").replace(" )", ")")
