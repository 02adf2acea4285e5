"""Canonical functions: options, built-ins, `lift` and `lower` (Component Model, Canonical Definitions)."""

from .core_types import core_value
from .cursor import Cursor
from .model import Node
from .types import core_group, core_reference, optional_async, optional_result


def memory(c):
    """memory = idx | "(" "core" "memory" idx text? ")" | legacy: idx text"""
    if not c.is_index():
        return core_group(c, "memory")
    return c.core_path("core memory") if c.legacy else c.reference("core memory")


OPTIONS = {
    "string-encoding=utf8": None,
    "string-encoding=utf16": None,
    "string-encoding=latin1+utf16": None,
    "async": None,
    "gc": None,
}
GROUPED_OPTIONS = {
    "memory": memory,
    "realloc": lambda c: core_reference(c, "func"),
    "post-return": lambda c: core_reference(c, "func"),
    "callback": lambda c: core_reference(c, "func"),
    "core-type": lambda c: core_reference(c, "type"),
}
UNWRITTEN_OPTIONS = ("gc", "core-type")


def options(c):
    """opt*"""
    out = []
    while c.is_word(*OPTIONS) or c.is_group(*GROUPED_OPTIONS):
        out.append(c.group(grouped_option) if c.peek().kind == "(" else Node(c.bump().value))
        if out[-1].row in UNWRITTEN_OPTIONS:
            c.form(4)
    return out


def grouped_option(c):
    word = c.bump().value
    return Node(word, (GROUPED_OPTIONS[word](c),))


# ---- what stands behind the word of a built-in


def type_index(c):
    """ty = idx | "(" "type" idx text* ")" """
    return c.reference("type") if c.is_index() else c.worded("type", Cursor.item_path, "type")


def lowered(c):
    """ "(" "func" idx text* ")" """
    return c.worded("func", Cursor.item_path, "func")


def core_type_index(c):
    """nref("type") = idx | "(" "core" "type" idx text? ")" """
    return c.reference("core type") if c.is_index() else core_group(c, "type")


def core_table(c):
    """cref("table")"""
    return core_reference(c, "table")


def memory_group(c):
    """ "(" "memory" memory ")" """
    return c.worded("memory", memory)


STREAMS = {
    "new": (type_index,),
    "read": (type_index, options),
    "write": (type_index, options),
    "forward": (type_index,),
    "cancel-read": (type_index, optional_async),
    "cancel-write": (type_index, optional_async),
    "drop-readable": (type_index,),
    "drop-writable": (type_index,),
}
BUILT_INS = {
    "lower": (lowered, options),
    "resource.new": (type_index,),
    "resource.drop": (type_index,),
    "resource.rep": (type_index,),
    "thread.spawn-ref": (core_type_index,),
    "thread.spawn-indirect": (core_type_index, core_table),
    "thread.new-indirect": (core_type_index, core_table),
    "thread.available-parallelism": (),
    "thread.available_parallelism": (),
    "task.return": (optional_result, options),
    "task.cancel": (),
    "context.get": (core_value, Cursor.number),
    "context.set": (core_value, Cursor.number),
    "subtask.drop": (),
    "subtask.cancel": (optional_async,),
    **{"stream." + word: parts for word, parts in STREAMS.items()},
    **{"future." + word: parts for word, parts in STREAMS.items()},
    "error-context.new": (options,),
    "error-context.debug-message": (options,),
    "error-context.drop": (),
    "backpressure.inc": (),
    "backpressure.dec": (),
    "waitable-set.new": (),
    "waitable-set.drop": (),
    "waitable.join": (),
    "waitable-set.wait": (memory_group,),
    "waitable-set.poll": (memory_group,),
    "thread.index": (),
    "thread.resume-later": (),
    "thread.suspend": (),
    "thread.yield": (),
    "thread.suspend-then-resume": (),
    "thread.yield-then-resume": (),
    "thread.suspend-then-promote": (),
    "thread.yield-then-promote": (),
}
UNWRITTEN_BUILT_INS = {
    "stream.forward", "future.forward", "waitable-set.wait", "waitable-set.poll", "thread.index", "thread.new-indirect", "thread.resume-later",
    "thread.suspend", "thread.yield", "thread.suspend-then-resume", "thread.yield-then-resume", "thread.suspend-then-promote",
    "thread.yield-then-promote",
}


def built_in(c):
    """builtin, a line of the table"""
    word = c.one_of(BUILT_INS)
    if word in UNWRITTEN_BUILT_INS:
        c.form(5)
    return Node(word.replace("available_parallelism", "available-parallelism"), tuple(part(c) for part in BUILT_INS[word]))


def lift(c):
    """lift = "lift" "(" "core" "func" idx text? ")" opt*: the function and the options"""
    c.words("lift")
    return core_group(c, "func"), options(c)
