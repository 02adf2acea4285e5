"""The answer to a text: its bytes and the origins of its definitions, or its refusal."""

from .binary import component_bytes, name_section
from .fields import whole
from .cursor import Cursor
from .model import Scope, direct
from .scopes import resolve
from .tokens import Refused


def marks(scope, indent):
    """The origins of the definitions of a scope, a line each, those of an inner scope behind its definition."""
    out = []
    for entry in scope.entries:
        out.append(indent + entry.line())
        for inner in direct(entry.node):
            if isinstance(inner, Scope):
                out += marks(inner, indent + "  ")
    is_named = scope.kind == "component" and name_section(scope)
    return out + ([indent + "name-section"] if is_named else [])


def encoded(text, legacy):
    """The bytes of a text of a component, and its scope where it has one."""
    cursor = Cursor(text, legacy)
    found = whole(cursor)
    if isinstance(found, bytes):
        return found, []
    if cursor.forms:
        holder, number = min(cursor.forms)
        raise Refused("Form-U%d" % number, holder)
    resolve(found, [])
    return component_bytes(found), marks(found, "  ")


def answer(text, legacy=False):
    """The lines of the answer to a text."""
    try:
        found, origins = encoded(text, legacy)
        return [found.hex()] + origins
    except Refused as refused:
        return ["error: %s at %d" % (refused.kind, refused.offset)]
