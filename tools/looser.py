"""Where serde reads or writes otherwise than the program by design, each kind by name with its reason.

`Reader` reads a value by printed items as the program does, but as serde does in the kinds that are switched on. A
difference between the program and serde is of a kind where switching that kind on gives what serde gave. The reader
judges no text: it takes every text where a native type or a rule on texts stands.
"""

import itertools

from emitted import all_types

KINDS = {
    "set-order": "a set is written in no fixed order",
    "list-for-fields": "a struct, the fields of a variant (but of an untagged enum), and an enum with a tag and what stands beside it, are also read from a list, by place",
    "object-for-unit": "a unit variant of an enum in external form is also read from an object with its name and null",
    "closed-unit": "a unit variant of a closed enum in internal form passes over other members",
    "content-absent": "a variant of an enum in adjacent form whose content is an option is also read without a content",
    "content-at-unit": "a unit variant of an enum in adjacent form also takes null as its content",
    "tag-by-number": "where a value was buffered (inside an untagged or an internal enum, or in a rest) the tag of an enum in internal form may be a variant's number",
    "tag-as-object": "the tag of an enum in adjacent form may be an object with a variant's name and null",
    "empty-for-null": "where a value was buffered, as above, an object without members is also read where null stands alone",
    "equal-sets": "items of a set that differ in the order of sets inside them are equal for std, and two for the program",
    "urn-capitals": "a release of crate uuid may refuse a text that begins with `URN:` in capitals",
    "native": "the types for uuid, date, date-time and ip take some texts more, and write equal values in one form",
}

INTEGERS = {"i8": (-2**7, 2**7 - 1), "i16": (-2**15, 2**15 - 1), "i32": (-2**31, 2**31 - 1), "i64": (-2**63, 2**63 - 1)}
for bits in (8, 16, 32, 64):
    INTEGERS[f"u{bits}"] = (0, 2**bits - 1)
    INTEGERS[f"std::num::NonZeroU{bits}"] = (1, 2**bits - 1)
NATIVE = {
    "uuid::Uuid", "chrono::naive::NaiveDate", "chrono::DateTime", "std::net::IpAddr", "std::net::Ipv4Addr",
    "std::net::Ipv6Addr",
}
OPTION, BOX, VEC = "std::option::Option", "std::boxed::Box", "std::vec::Vec"
SET, MAP = "std::collections::HashSet", "std::collections::HashMap"


class Refused(Exception):
    pass


class Native(str):
    """A text that was read as a native type."""


class SetOf(list):
    """What a set is written as."""


class MapOfNative(dict):
    """What a map is written as whose names are of a native type."""


def is_empty(ty, value):
    return ty[0] == "path" and ((ty[1] == OPTION and value is None) or (ty[1] in (VEC, SET) and value == []) or (ty[1] == MAP and value == {}))


def same(written, seen, kinds):
    """Whether what was written is what was seen, up to the kinds."""
    if isinstance(written, Native):
        return isinstance(seen, str) and ("native" in kinds or written == seen)
    if isinstance(written, MapOfNative) and "native" in kinds:
        return isinstance(seen, dict)
    if isinstance(written, SetOf) and isinstance(seen, list):
        if "native" in kinds and any(isinstance(one, Native) for one in written):
            return len(seen) <= len(written)
        if "set-order" in kinds:
            left = list(seen)
            for one in written:
                place = next((i for i, other in enumerate(left) if same(one, other, kinds)), None)
                if place is None:
                    return False
                del left[place]
            return not left
    if isinstance(written, list):
        return isinstance(seen, list) and len(written) == len(seen) and all(same(a, b, kinds) for a, b in zip(written, seen))
    if isinstance(written, dict):
        return isinstance(seen, dict) and written.keys() == seen.keys() and all(same(written[k], seen[k], kinds) for k in written)
    return type(seen) is type(written) and written == seen


class Reader:
    def __init__(self, items, kinds, stated):
        self.items = {item.name: item for item in items}
        self.kinds, self.stated = kinds, stated

    def read(self, ty, value, buffered=False):
        """What the value is written as after it was read, or Refused."""
        if ty[0] == "tuple":
            if not ty[1]:
                self.only(self.is_null(value, buffered), value)
                return None
            return self.places(ty[1], value, buffered)
        if ty[0] == "array":
            return self.places([ty[1]] * ty[2], value, buffered)
        if ty[0] == "name" and ty[1] in self.items:
            return self.item(self.items[ty[1]], value, buffered)
        if ty[1] in INTEGERS:
            low, high = INTEGERS[ty[1]]
            return self.only(type(value) is int and low <= value <= high, value)
        if ty[1] == "bool":
            return self.only(type(value) is bool, value)
        if ty[1] == "std::string::String":
            return self.only(isinstance(value, str), value)
        if ty[1] in NATIVE:
            if ty[1] == "uuid::Uuid" and isinstance(value, str) and "urn-capitals" in self.kinds:
                self.only(value.startswith("urn:uuid:") or not value.lower().startswith("urn:uuid:"), value)
            return Native(self.only(isinstance(value, str), value))
        if ty[1] == "serde_json::Value":
            return value
        return self.held(ty, value, buffered)

    def is_null(self, value, buffered):
        return value is None or (buffered and value == {} and "empty-for-null" in self.kinds)

    def held(self, ty, value, buffered):
        if ty[1] == OPTION:
            return None if value is None else self.read(ty[2][0], value, buffered)
        if ty[1] == BOX:
            return self.read(ty[2][0], value, buffered)
        if ty[1] == VEC:
            self.only(isinstance(value, list), value)
            return [self.read(ty[2][0], one, buffered) for one in value]
        if ty[1] == SET:
            self.only(isinstance(value, list), value)
            kept, alike = SetOf(), {"set-order"} if "equal-sets" in self.kinds else set()
            for one in value:
                part = self.read(ty[2][0], one, buffered)
                if not any(same(other, part, alike) for other in kept):
                    kept.append(part)
            return kept
        if ty[1] == MAP:
            return self.map(ty, value, buffered)
        raise ValueError(f"no type of the reader: {ty}")

    def map(self, ty, value, buffered):
        self.only(isinstance(value, dict), value)
        pairs = [(self.read(ty[2][0], name, buffered), self.read(ty[2][1], one, buffered)) for name, one in value.items()]
        return (MapOfNative if any(isinstance(name, Native) for name, _ in pairs) else dict)(pairs)

    def only(self, holds, value):
        if not holds:
            raise Refused()
        return value

    def places(self, types, value, buffered):
        self.only(isinstance(value, list) and len(value) == len(types), value)
        return [self.read(ty, one, buffered) for ty, one in zip(types, value)]

    def item(self, item, value, buffered):
        if item.kind == "places":
            return self.read(item.parts[0], value, buffered)
        if item.kind == "fields":
            return self.fields(item.parts, item.is_closed, value, buffered)
        if "untagged" in item.metas:
            return self.untagged(item, value)
        if "content" in item.metas:
            return self.adjacent(item, value, buffered)
        if "tag" in item.metas:
            return self.internal(item, value, buffered)
        return self.external(item, value, buffered)

    # ---- fields

    def missing(self, field):
        """What a field that is missing is written as: a list of at most one value."""
        if "default" in field.metas:
            path = field.metas["default"]
            return [] if path is None else self.default(field, self.stated[path])
        self.only("deserialize_with" not in field.metas and self.leads_to_option(field.type), None)
        return [None]

    def default(self, field, value):
        """What a stated default is written as: it is read as the field's type, so that its sets are sets."""
        try:
            part = self.read(field.type, value)
        except Refused:
            return [value]
        return [] if field.skips and is_empty(field.type, part) else [part]

    def leads_to_option(self, ty):
        if ty[0] == "path":
            return ty[1] == OPTION or (ty[1] == BOX and self.leads_to_option(ty[2][0]))
        item = self.items.get(ty[1]) if ty[0] == "name" else None
        return item is not None and "transparent" in item.metas and self.leads_to_option(item.parts[0])

    def present(self, field, value, buffered):
        helper = field.metas.get("deserialize_with")
        if helper == "typify_present::some":
            return [self.read(field.type[2][0], value, buffered)]
        part = self.read(field.type, value, buffered)
        return [] if field.skips and is_empty(field.type, part) else [part]

    def fields(self, fields, closed, value, buffered):
        if isinstance(value, list) and "list-for-fields" in self.kinds and not any(field.is_rest for field in fields):
            return self.fields_of_list(fields, value, buffered)
        self.only(isinstance(value, dict), value)
        names = {field.json for field in fields if not field.is_rest}
        others = {name: one for name, one in value.items() if name not in names}
        self.only(not (closed and others), value)
        done = {}
        for field in fields:
            if field.is_rest:
                done.update(self.map(field.type, others, True))
        for field in fields:
            if not field.is_rest:
                parts = self.present(field, value[field.json], buffered) if field.json in value else self.missing(field)
                done.update((field.json, part) for part in parts)
        return done

    def fields_of_list(self, fields, value, buffered):
        self.only(len(value) <= len(fields), value)
        done = {}
        for place, field in enumerate(fields):
            if place < len(value):
                parts = self.present(field, value[place], buffered)
            else:
                self.only("default" in field.metas, value)
                parts = self.missing(field)
            done.update((field.json, part) for part in parts)
        return done

    # ---- variants

    def content(self, item, variant, value, buffered):
        if variant.style == "fields":
            return self.fields(variant.parts, item.is_closed, value, buffered)
        if variant.style == "unit":
            return self.only(value is None, value)
        if len(variant.parts) == 1:
            return self.read(variant.parts[0], value, buffered)
        return self.places(variant.parts, value, buffered)

    def named(self, item, name):
        return self.only_one([variant for variant in item.parts if variant.json == name])

    def tagged(self, item, tag, by_number=False):
        if type(tag) is int and by_number and "tag-by-number" in self.kinds and 0 <= tag < len(item.parts):
            return item.parts[tag]
        return self.named(item, self.only(isinstance(tag, str), tag))

    def only_one(self, found):
        self.only(len(found) == 1, found)
        return found[0]

    def external(self, item, value, buffered):
        if isinstance(value, str):
            variant = self.named(item, value)
            return self.only(variant.style == "unit", variant.json)
        self.only(isinstance(value, dict) and len(value) == 1, value)
        name, content = next(iter(value.items()))
        variant = self.named(item, name)
        if variant.style == "unit":
            self.only("object-for-unit" in self.kinds and self.is_null(content, buffered), value)
            return variant.json
        return {variant.json: self.content(item, variant, content, buffered)}

    def internal(self, item, value, buffered):
        tag = item.metas["tag"]
        if isinstance(value, list) and "list-for-fields" in self.kinds:
            self.only(len(value) > 0, value)
            variant, rest = self.tagged(item, value[0], buffered), value[1:]
        else:
            self.only(isinstance(value, dict) and tag in value, value)
            variant, rest = self.tagged(item, value[tag], buffered), {name: one for name, one in value.items() if name != tag}
        done = {tag: variant.json}
        if variant.style == "fields":
            done.update(self.fields(variant.parts, item.is_closed, rest, True))
        elif not isinstance(rest, list) and item.is_closed and "closed-unit" not in self.kinds:
            self.only(not rest, value)
        return done

    def adjacent(self, item, value, buffered):
        tag, content = item.metas["tag"], item.metas["content"]
        if isinstance(value, list) and "list-for-fields" in self.kinds:
            self.only(len(value) == 2, value)
            value = dict(zip((tag, content), value))
        self.only(isinstance(value, dict) and tag in value, value)
        self.only(not item.is_closed or value.keys() <= {tag, content}, value)
        named = value[tag]
        if isinstance(named, dict) and len(named) == 1 and "tag-as-object" in self.kinds:
            named, inner = next(iter(named.items()))
            self.only(self.is_null(inner, buffered), value)
        variant = self.tagged(item, named)
        done = {tag: variant.json}
        if variant.style == "unit":
            self.only(content not in value or ("content-at-unit" in self.kinds and value[content] is None), value)
        elif content in value:
            done[content] = self.content(item, variant, value[content], buffered)
        else:
            option = variant.style == "places" and len(variant.parts) == 1 and self.leads_to_option(variant.parts[0])
            self.only("content-absent" in self.kinds and option, value)
            done[content] = None
        return done

    def untagged(self, item, value):
        for variant in item.parts:
            # serde reads the fields of such a variant from an object alone
            if variant.style == "fields" and isinstance(value, list):
                continue
            try:
                return self.content(item, variant, value, True)
            except Refused:
                pass
        raise Refused()


def holds_native(items, root):
    return any(ty[0] == "path" and ty[1] in NATIVE for one in [root] + [ty for item in items for ty in item.types()] for ty in all_types(one))


def answer(items, root, value, kinds, stated):
    try:
        return ("taken", Reader(items, kinds, stated).read(root, value))
    except Refused:
        return ("refused", None)


def is_answer(given, seen, kinds):
    return given[0] == seen[0] and (given[0] == "refused" or same(given[1], seen[1], kinds))


def has_order(written):
    """Whether a set of two items or more was written, whose order is by chance."""
    if isinstance(written, SetOf) and len(written) > 1:
        return True
    parts = written.values() if isinstance(written, dict) else written if isinstance(written, list) else []
    return any(has_order(part) for part in parts)


def is_unordered(items, root, value, stated):
    given = answer(items, root, value, set(), stated)
    return given[0] == "taken" and has_order(given[1])


def kinds_of(items, root, value, verdict, seen, stated):
    """The fewest kinds that make the reader give what serde gave, or None. Both `verdict`, the program's, and `seen`,
    serde's, are ("taken", value) or ("refused", text)."""
    like_program = is_answer(answer(items, root, value, set(), stated), verdict, set())
    for count in range(1, 4):
        for chosen in itertools.combinations(KINDS, count):
            # where the reader, which judges no text, isn't as the program without any kind, texts are what differs
            if not like_program and not ("native" in chosen and holds_native(items, root)):
                continue
            if is_answer(answer(items, root, value, set(chosen), stated), seen, set(chosen)):
                return list(chosen)
    return None
