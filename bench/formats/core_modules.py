"""The rules of core modules and their bytes (WebAssembly, Modules and Binary Format)."""

from itertools import groupby

from .core_fields import Function
from .leb import framed, leb, limits_bytes, signed_leb, vector
from .model import Ref
from .tokens import Refused

PREAMBLE = b"\0asm\1\0\0\0"
# The kinds of items with their sorts, and the parts of the name section by kind.
SORTS = {"func": 0, "table": 1, "memory": 2, "global": 3}
NAMED = {"func": 1, "type": 4, "table": 5, "memory": 6, "global": 7}
END = b"\x0b"


def resolve_module(module):
    """Refuses a module by the first rule that is broken."""
    Module(module.fields).check()


def module_bytes(module):
    return Module(module.fields).bytes(module.names.shown())


def places_of(names, first=0):
    """The numbers of names; an id that stands twice is refused at the second."""
    places = {}
    for number, each in enumerate(names, first):
        if each.id is not None and each.id in places:
            raise Refused("Core-Duplicate", each.offset)
        if each.id is not None:
            places[each.id] = number
    return places


class Module:
    """The fields of a core module, with the numbers of their names and the function types that they use."""

    def __init__(self, fields):
        self.fields = fields
        self.items = {kind: [field for field in fields if field.kind == kind] for kind in ("type", *SORTS)}
        self.places, self.types = {}, []

    # ---- the rules, in the order in which they are looked for

    def check(self):
        """Refuses by the first rule that is broken; then all function types are known."""
        self.check_imports()
        self.register()
        for field in self.fields:
            self.check_field(field)
        self.types = [self.signature(field.says) for field in self.items["type"]]
        for field in self.items["func"]:
            self.use(field)

    def check_imports(self):
        is_late = False
        for field in self.fields:
            if field.imported and is_late:
                raise Refused("Core-ImportOrder", field.offset)
            is_late = is_late or (field.kind in SORTS and not field.imported)

    def register(self):
        """Counts the names of each kind of items; an id that stands twice is refused at the second."""
        self.places = {"core " + kind: {} for kind in self.items}
        for field in self.fields:
            if field.names.id is not None:
                places = self.places["core " + field.kind]
                if field.names.id in places:
                    raise Refused("Core-Duplicate", field.names.offset)
                places[field.names.id] = self.number_of_field(field)

    def number_of_field(self, field):
        return next(number for number, each in enumerate(self.items[field.kind]) if each is field)

    def check_field(self, field):
        """Part by part: of a function its type use, its parameters and locals, its instructions; of other fields as they are written."""
        if field.kind == "type":
            self.check_function(field.says)
        elif field.kind == "func":
            self.check_use(field.says)
            self.check_body(field, self.check_locals(field))
        elif field.kind == "export":
            self.number(field.says[1])
        elif field.kind in ("table", "global"):
            self.value(field.says[0])
            self.check_body(field, {})

    def check_use(self, use):
        if use.index:
            self.number(use.index)
        if use.written:
            self.check_function(use.written)
        if use.index and use.written:
            number, types = self.number(use.index), self.items["type"]
            if number >= len(types) or self.signature(types[number].says) != self.signature(use.written):
                raise Refused("Core-TypeMismatch", use.index.index.offset)

    def check_function(self, ty):
        for value in [value for _, value in ty.params] + ty.results:
            self.value(value)

    def check_locals(self, field):
        """The names in the type of each parameter and local, and its id."""
        all_names = []
        for names, value in [] if field.is_import_field else self.params(field) + field.locals:
            self.value(value)
            all_names.append(names)
            places_of(all_names)
        return places_of(all_names)

    def check_body(self, field, places):
        for _, operand in field.body:
            if isinstance(operand, Ref):
                self.number(operand, places)

    # ---- numbers

    def number(self, ref, places=None):
        """The number of a reference; a name that isn't there is refused."""
        if ref.index.name is None:
            return ref.index.number
        places = places if ref.space == "local" else self.places[ref.space]
        if ref.index.name not in places:
            raise Refused("Core-Unknown", ref.index.offset)
        return places[ref.index.name]

    def value(self, value):
        """The bytes of a value type."""
        if value.heap is None:
            return bytes([value.byte])
        return bytes([value.byte]) + (bytes([value.heap]) if isinstance(value.heap, int) else signed_leb(self.number(value.heap)))

    def signature(self, ty):
        """The parameters and results of a function type; one with a name that isn't there is equal to no other."""
        try:
            return [self.value(value) for _, value in ty.params], [self.value(value) for value in ty.results]
        except Refused:
            return None

    def params(self, field):
        return field.says.written.params if field.says.written else []

    def use(self, field):
        """The number of a function's type: by its index, or the first that is written alike, which is added where there is none."""
        use = field.says
        if use.index:
            return self.number(use.index)
        signature = self.signature(use.written or Function())
        if signature not in self.types:
            self.types.append(signature)
        return self.types.index(signature)

    def first_local(self, field):
        """How many parameters stand before the locals: those that are written, or those of the type at the index."""
        if field.says.written or not field.says.index:
            return len(self.params(field))
        number = self.number(field.says.index)
        return len(self.types[number][0]) if number < len(self.types) else 0

    # ---- bytes

    def bytes(self, shown):
        self.check()
        own = {kind: [field for field in fields if not field.imported] for kind, fields in self.items.items()}
        sections = [
            (1, [b"\x60" + vector(params) + vector(results) for params, results in self.types]),
            (2, [self.import_bytes(field) for field in self.fields if field.imported]),
            (3, [leb(self.use(field)) for field in own["func"]]),
            (4, [self.entity(field) for field in own["table"]]),
            (5, [self.entity(field) for field in own["memory"]]),
            (6, [self.entity(field) + self.expression(field, {}) for field in own["global"]]),
            (7, [exported for field in self.fields for exported in self.export_bytes(field)]),
            (10, [framed(self.code(field)) for field in own["func"]]),
        ]
        names = self.name_section(shown)
        custom = b"\0" + framed(framed(b"name") + names) if names else b""
        return PREAMBLE + b"".join(bytes([number]) + framed(vector(parts)) for number, parts in sections if parts) + custom

    def entity(self, field):
        if field.kind == "func":
            return leb(self.use(field))
        if field.kind == "memory":
            return limits_bytes(field.says)
        return self.value(field.says[0]) + (limits_bytes(field.says[1]) if field.kind == "table" else bytes([field.says[1]]))

    def import_bytes(self, field):
        return framed(field.imported[0]) + framed(field.imported[1]) + bytes([SORTS[field.kind]]) + self.entity(field)

    def export_bytes(self, field):
        if field.kind == "export":
            name, ref = field.says
            return [framed(name) + bytes([SORTS[ref.space.removeprefix("core ")]]) + leb(self.number(ref))]
        return [framed(name) + bytes([SORTS[field.kind]]) + leb(self.number_of_field(field)) for name in field.exports]

    def code(self, field):
        """The locals, neighbours of one type joined, and the instructions."""
        runs = [(len(list(run)), value) for value, run in groupby(self.value(value) for _, value in field.locals)]
        places = places_of([names for names, _ in self.params(field)])
        places.update(places_of([names for names, _ in field.locals], self.first_local(field)))
        return vector([leb(count) + value for count, value in runs]) + self.expression(field, places)

    def expression(self, field, places):
        out = b""
        for byte, operand in field.body:
            number = b"" if operand is None else signed_leb(operand) if isinstance(operand, int) else leb(self.number(operand, places))
            out += bytes([byte]) + number
        return out + END

    def name_section(self, shown):
        parts = [] if shown is None else [(0, framed(shown))]
        for kind, part in NAMED.items():
            parts.append((part, named([field.names for field in self.items[kind]])))
        parts.append((2, self.local_names()))
        return b"".join(bytes([part]) + framed(names) for part, names in sorted(parts) if names)

    def local_names(self):
        """The names of parameters and locals, of each function that has some."""
        out = []
        for number, field in enumerate(self.items["func"]):
            first = self.first_local(field)
            params, local_names = [names for names, _ in self.params(field)], [names for names, _ in field.locals]
            pairs = [] if field.imported else pairs_of(params) + pairs_of(local_names, first)
            out += [leb(number) + vector(pairs)] if pairs else []
        return vector(out) if out else b""


def pairs_of(names, first=0):
    return [leb(number) + framed(each.shown()) for number, each in enumerate(names, first) if each.shown() is not None]


def named(names):
    pairs = pairs_of(names)
    return vector(pairs) if pairs else b""
