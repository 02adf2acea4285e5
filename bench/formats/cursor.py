"""What the rows of the text grammar are read by: tokens from left to right, with a look at the next few where the format has one.

The first token that fits no row is the refusal.
"""

from contextlib import contextmanager

from .model import Index, Names, Ref
from .tokens import Refused, is_utf8, tokens_of

DEEPEST = 100
OPENING = {"(": 1, "annotation": 1, ")": -1}


class Cursor:
    """A place in the tokens of a text, with the forms that were read there and are never written."""

    def __init__(self, text, legacy):
        self.tokens, self.legacy = tokens_of(text), legacy
        self.at = self.open = 0
        self.forms, self.holder, self.is_written = [], None, True

    # ---- tokens

    def peek(self, ahead=0):
        return self.tokens[min(self.at + ahead, len(self.tokens) - 1)]

    def fail(self):
        raise Refused("Parse", self.peek().offset)

    def bump(self):
        token = self.peek()
        self.at += 1
        self.open += OPENING.get(token.kind, 0)
        return token

    def take(self, kind, *values):
        """The next token, which is of this kind and has one of these values, where any are given."""
        token = self.peek()
        if token.kind != kind or (values and token.value not in values):
            self.fail()
        return self.bump()

    def one_of(self, words):
        """The next word, which is one of these."""
        if not self.is_word(*words):
            self.fail()
        return self.bump().value

    def words(self, *words):
        """Takes these words, and gives the offset of the first."""
        return [self.take("word", word).offset for word in words][0]

    def is_word(self, *words, ahead=0):
        return self.peek(ahead).kind == "word" and self.peek(ahead).value in words

    def is_group(self, *words):
        return self.peek().kind == "(" and self.is_word(*words, ahead=1)

    def is_end(self):
        """Whether the group or the text ends here."""
        return self.peek().kind in (")", "end")

    def is_index(self, ahead=0):
        return self.peek(ahead).kind in ("id", "integer")

    def ends_index(self, ahead):
        """Whether an index stands there, and behind it the end of its group or a text."""
        return self.is_index(ahead) and self.peek(ahead + 1).kind in (")", "string")

    # ---- groups and lists

    def group(self, contents, *arguments):
        self.take("(")
        out = contents(self, *arguments)
        self.take(")")
        return out

    def worded(self, words, contents, *arguments):
        """A group that begins with these words."""
        self.take("(")
        self.words(*words.split())
        out = contents(self, *arguments)
        self.take(")")
        return out

    def many(self, contents, *arguments):
        """As many as there are up to the end of the group."""
        out = []
        while not self.is_end():
            out.append(contents(self, *arguments))
        return out

    def groups(self, word, contents, *arguments):
        """As many groups of this word as stand here."""
        out = []
        while self.is_group(word):
            out.append(self.worded(word, contents, *arguments))
        return out

    def check_depth(self):
        """A checked item is next: too many parentheses may not be open."""
        if self.open > DEEPEST:
            raise Refused("TooDeep", self.peek().offset)

    # ---- values

    def number(self):
        """num: an integer without `-`, below 2^32."""
        if not is_numeral(self.peek()):
            self.fail()
        return integer_value(self.bump().value)

    def index(self):
        """idx = num | id"""
        if self.peek().kind == "id":
            token = self.bump()
            return Index(name=token.value, offset=token.offset)
        return Index(offset=self.peek().offset, number=self.number())

    def text(self):
        """text: a string that is UTF-8."""
        if self.peek().kind != "string" or not is_utf8(self.peek().value):
            self.fail()
        return self.bump().value

    def texts(self, most=None):
        """text*, or text?"""
        out = []
        while self.peek().kind == "string" and len(out) != most:
            out.append(self.text())
        return tuple(out)

    def string(self):
        return self.take("string").value

    def names(self):
        """id? name?, where name = "(@name" text ")" """
        out = Names()
        if self.peek().kind == "id":
            token = self.bump()
            out.id, out.offset = token.value, token.offset
        if self.peek().kind == "annotation" and self.peek().value == "@name":
            out.label = self.label()
        return out

    def label(self):
        self.take("annotation", "@name")
        label = self.text()
        self.take(")")
        return label

    # ---- references

    def reference(self, space, reach="outward"):
        return Ref(space, self.index(), reach=reach)

    def item_path(self, space, most=None):
        """idx text*; the root of a path is looked for in the own scope alone."""
        index, path = self.index(), self.texts(most)
        return Ref(space, index, path, "own" if path else "outward")

    def core_path(self, space):
        """idx text?"""
        return self.item_path(space, 1)

    # ---- forms that are read and never written

    @contextmanager
    def held(self, offset):
        """The holder of the forms that are read inside: a field or a declaration, at its first word."""
        before, self.holder = self.holder, offset
        yield
        self.holder = before

    @contextmanager
    def left_out(self, is_so=True):
        """What is read inside is never written, so no form in it is refused."""
        before, self.is_written = self.is_written, self.is_written and not is_so
        yield
        self.is_written = before

    def form(self, number):
        """A form of this number stands here, which is read and never written."""
        if self.is_written:
            self.forms.append((self.holder, number))


def integer_value(digits):
    """The number that an integer token stands for, its sign included."""
    return int(digits, 16 if "0x" in digits else 10)


def is_numeral(token):
    return token.kind == "integer" and not token.value.startswith("-") and integer_value(token.value) < 2**32
