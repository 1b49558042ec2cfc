"""The items that `typify items DEPTH` prints, parsed: one space stands between two tokens."""

import re

TOKEN = re.compile(r'"(?:\\.|[^"\\])*"|[^ ]+', re.S)
ESCAPE = re.compile(r'\\(u\{([0-9a-fA-F_]+)\}|x([0-9a-fA-F]{2})|.)', re.S)
SIMPLE = {"n": "\n", "r": "\r", "t": "\t", "0": "\0", "\\": "\\", '"': '"', "'": "'"}


class Unread(Exception):
    """The text isn't an item in the form in which items are printed."""


def literal(token):
    def one(match):
        if match[2] is not None:
            return chr(int(match[2].replace("_", ""), 16))
        if match[3] is not None:
            return chr(int(match[3], 16))
        return SIMPLE[match[1]]
    return ESCAPE.sub(one, token[1:-1])


class Field:
    def __init__(self, name, ty, metas):
        self.name, self.type, self.metas = name, ty, metas
        self.json = metas.get("rename", name)
        self.is_rest = "flatten" in metas
        self.skips = "skip_serializing_if" in metas


class Variant:
    """Its style is `unit`, `fields` (a list of Field) or `places` (a list of types)."""

    def __init__(self, name, style, parts, metas):
        self.name, self.style, self.parts, self.metas = name, style, parts, metas
        self.json = metas.get("rename", name)


class Item:
    """Its kind is `enum` (parts: Variants), `fields` (parts: Fields) or `places` (parts: types)."""

    def __init__(self, name, kind, parts, metas, text):
        self.name, self.kind, self.parts, self.metas, self.text = name, kind, parts, metas, text
        self.is_closed = "deny_unknown_fields" in metas
        # the type that `try_from` names
        self.inner = Parser(metas["try_from"]).type() if "try_from" in metas else None

    def types(self):
        if self.kind == "places":
            return list(self.parts)
        if self.kind == "fields":
            return [field.type for field in self.parts]
        return [part.type if variant.style == "fields" else part for variant in self.parts for part in variant.parts]


# A type is a tuple: ("tuple", types), ("array", type, length), ("path", text, types) or ("name", text), where a name is
# that of an item or of a type that Rust has in every scope.
PRIMITIVE = {"bool", "i8", "i16", "i32", "i64", "u8", "u16", "u32", "u64"}


class Parser:
    def __init__(self, text):
        self.text = text
        self.tokens = TOKEN.findall(text)
        self.place = 0

    def peek(self, ahead=0):
        place = self.place + ahead
        return self.tokens[place] if place < len(self.tokens) else None

    def take(self, wanted=None):
        token = self.peek()
        if token is None or (wanted is not None and token != wanted):
            raise Unread(f"{wanted or 'a token'} wanted at token {self.place} of: {self.text}")
        self.place += 1
        return token

    def metas(self):
        found = {}
        if self.peek() != "#":
            return found
        for token in ("#", "[", "serde", "("):
            self.take(token)
        while self.peek() != ")":
            name = self.take()
            if self.peek() == "=":
                self.take()
                found[name] = literal(self.take())
            else:
                found[name] = None
            if self.peek() == ",":
                self.take()
        self.take(")")
        self.take("]")
        return found

    def listed(self, end, one):
        found = []
        while self.peek() != end:
            found.append(one())
            if self.peek() == ",":
                self.take()
        self.take(end)
        return found

    def type(self):
        if self.peek() == "(":
            self.take()
            return ("tuple", tuple(self.listed(")", self.type)))
        if self.peek() == "[":
            self.take()
            inner = self.type()
            self.take(";")
            length = int(self.take())
            self.take("]")
            return ("array", inner, length)
        if self.peek() != "::":
            return ("name", self.take())
        segments = []
        while self.peek() == "::":
            self.take()
            segments.append(self.take())
        inner = ()
        if self.peek() == "<":
            self.take()
            inner = tuple(self.listed(">", self.type))
        return ("path", "::".join(segments), inner)

    def field(self):
        metas = self.metas()
        name = self.take()
        self.take(":")
        return Field(name, self.type(), metas)

    def variant(self):
        metas = self.metas()
        name = self.take()
        if self.peek() == "(":
            self.take()
            return Variant(name, "places", self.listed(")", self.type), metas)
        if self.peek() == "{":
            self.take()
            return Variant(name, "fields", self.listed("}", self.field), metas)
        return Variant(name, "unit", [], metas)

    def item(self):
        metas = self.metas()
        word = self.take()
        name = self.take()
        if word == "enum":
            self.take("{")
            kind, parts = "enum", self.listed("}", self.variant)
        elif self.peek() == "(":
            self.take()
            kind, parts = "places", self.listed(")", self.type)
            self.take(";")
        else:
            self.take("{")
            kind, parts = "fields", self.listed("}", self.field)
        if self.peek() is not None:
            raise Unread(f"nothing wanted behind the item: {self.text}")
        return Item(name, kind, parts, metas, self.text)


def item_of(text):
    return Parser(text).item()


def type_of(text):
    """The type that stands in a text with no more spaces than rustfmt leaves."""
    return Parser(" ".join(re.findall(r"::|\w+|[^\w\s:]", text))).type()


def written(ty):
    """A type as Rust text."""
    if ty[0] == "tuple":
        return "(" + "".join(written(one) + "," for one in ty[1]) + ")"
    if ty[0] == "array":
        return f"[{written(ty[1])}; {ty[2]}]"
    if ty[0] == "path":
        inner = "<" + ", ".join(written(one) for one in ty[2]) + ">" if ty[2] else ""
        return "::" + ty[1] + inner
    return ty[1]


def inner_types(ty):
    if ty[0] == "tuple":
        return ty[1]
    if ty[0] == "array":
        return (ty[1],)
    return ty[2] if ty[0] == "path" else ()


def all_types(ty):
    """The type and all that it holds, without looking into items."""
    found = [ty]
    for one in inner_types(ty):
        found += all_types(one)
    return found
