"""How a text is cut into tokens (WebAssembly text format, Lexical Format, with annotations). Offsets are bytes."""

import re
from dataclasses import dataclass

ID_CHARACTERS = set(b"0123456789abcdefghijklmnopqrstuvwxyzABCDEFGHIJKLMNOPQRSTUVWXYZ!#$%&'*+-./:<=>?@\\^_`|~")
MARKS = set(b",;[]{}")
WHITE = set(b" \t\n\r")
ESCAPES = {0x74: b"\t", 0x6E: b"\n", 0x72: b"\r", 0x22: b'"', 0x27: b"'", 0x5C: b"\\"}
HEX_ESCAPE = re.compile(rb"\\([0-9a-fA-F]{2})")
UNICODE_ESCAPE = re.compile(rb"\\u\{([0-9a-fA-F]+(?:_[0-9a-fA-F]+)*)\}")
INTEGER = re.compile(rb"[+-]?(?:0x[0-9a-fA-F]+(?:_[0-9a-fA-F]+)*|[0-9]+(?:_[0-9]+)*)")
REGISTERED = {"@name", "@custom", "@producers", "@dylink.0", "@metadata.code.branch_hint"}
LONGEST_TEXT = 67_108_864


class Refused(Exception):
    """A refusal: its kind and its offset."""

    def __init__(self, kind, offset):
        super().__init__(kind, offset)
        self.kind, self.offset = kind, offset


@dataclass
class Token:
    """A token: `(`, `)`, `string`, `id`, `integer`, `word`, `annotation`, `reserved` or `end`, with what it stands for."""

    kind: str
    value: object
    offset: int


def tokens_of(text):
    """The tokens of a text with one that stands for its end, without the groups of annotations that aren't registered."""
    if len(text) > LONGEST_TEXT:
        raise Refused("TooBig", 0)
    tokens = without_unregistered(tiling(text), len(text))
    return tokens + [Token("end", None, len(text))]


def without_unregistered(tokens, length):
    """Leaves out these groups; one that never closes is a reserved token at the end of the text."""
    kept, depth = [], 0
    for token in tokens:
        if depth:
            depth += {"(": 1, "annotation": 1, ")": -1}.get(token.kind, 0)
        elif token.kind == "annotation" and token.value not in REGISTERED:
            depth = 1
        else:
            kept.append(token)
    return kept + [Token("reserved", None, length)] if depth else kept


def tiling(text):
    """All tokens, white space and comments left out; the first fault is the refusal."""
    tokens, at = [], 0
    while at < len(text):
        if text[at] in WHITE:
            at += 1
        elif text.startswith(b";;", at):
            at = line_end(text, at)
        elif text.startswith(b"(;", at):
            at = comment_end(text, at)
        else:
            token, at = token_at(text, at)
            tokens.append(token)
    return tokens


def line_end(text, at):
    while at < len(text) and text[at] not in b"\n\r":
        at += 1
    return at


def comment_end(text, at):
    """The offset behind the block comment that begins here; block comments nest."""
    depth, end = 1, at + 2
    while depth:
        two = text[end : end + 2]
        if not two:
            raise Refused("Lex-UnclosedComment", at)
        depth += {b"(;": 1, b";)": -1}.get(two, 0)
        end += 2 if two in (b"(;", b";)") else 1
    return end


def token_at(text, at):
    """The token that begins here, and the offset behind it."""
    if text.startswith(b"(@", at):
        return annotation_at(text, at)
    if text[at] in b"()":
        return Token(chr(text[at]), None, at), at + 1
    end, strings = run_at(text, at)
    if end == at:
        raise Refused("Lex-BadChar", at)
    return run_token(text[at:end], strings, at), end


def annotation_at(text, at):
    end = at + 2
    while end < len(text) and text[end] in ID_CHARACTERS:
        end += 1
    if end == at + 2:
        raise Refused("Lex-EmptyId", at)
    if run_at(text, end)[0] > end:
        raise Refused("Lex-Glued", end)
    return Token("annotation", text[at + 1 : end].decode(), at), end


def run_at(text, at):
    """The end of the run that begins here, and the strings in it with their places."""
    end, strings = at, []
    while end < len(text) and not text.startswith(b";;", end):
        if text[end] == 0x22:
            value, behind = string_at(text, end)
            strings.append((value, end, behind))
            end = behind
        elif text[end] in ID_CHARACTERS or text[end] in MARKS:
            end += 1
        else:
            break
    return end, strings


def run_token(run, strings, at):
    """The token that a whole run is."""
    if strings and strings[0][1:] == (at, at + len(run)):
        return Token("string", strings[0][0], at)
    if run == b"$" or run == b'$""':
        raise Refused("Lex-EmptyId", at)
    if strings and run[:1] == b"$" and strings[0][1:] == (at + 1, at + len(run)):
        if not is_utf8(strings[0][0]):
            raise Refused("Lex-BadIdText", at)
        return Token("id", strings[0][0], at)
    if strings or any(byte in MARKS for byte in run):
        return Token("reserved", None, at)
    if run[:1] == b"$":
        return Token("id", run[1:], at)
    if INTEGER.fullmatch(run):
        return Token("integer", run.decode().replace("_", ""), at)
    return Token("word", run.decode(), at) if b"a" <= run[:1] <= b"z" else Token("reserved", None, at)


def string_at(text, at):
    """The bytes that the string with this quote stands for, and the offset behind it."""
    value, here = bytearray(), at + 1
    while here < len(text):
        if text[here] == 0x22:
            return bytes(value), here + 1
        if text[here] < 0x20 or text[here] == 0x7F:
            raise Refused("Lex-BadStringChar", here)
        part, here = escape_at(text, here) if text[here] == 0x5C else (text[here : here + 1], here + 1)
        value += part
    raise Refused("Lex-UnclosedString", at)


def escape_at(text, at):
    """What the escape that begins here stands for, and the offset behind it."""
    if text[at + 1 : at + 2] and text[at + 1] in ESCAPES:
        return ESCAPES[text[at + 1]], at + 2
    if found := HEX_ESCAPE.match(text, at):
        return bytes([int(found[1], 16)]), found.end()
    if found := UNICODE_ESCAPE.match(text, at):
        scalar = int(found[1].replace(b"_", b""), 16)
        if scalar < 0xD800 or 0xE000 <= scalar < 0x110000:
            return chr(scalar).encode(), found.end()
    raise Refused("Lex-BadEscape", at)


def is_utf8(value):
    try:
        value.decode()
    except UnicodeDecodeError:
        return False
    return True
