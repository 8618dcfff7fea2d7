"""How enums are read."""
from dataclasses import replace

from lines import ALIKE, CLOSED, CONTENT_FIRST, NAMES, OF_TEXT, ORDER, PLACES, REFUSES, TEXTS, UNIT_CONTENT
from shapes import CONVERTED, kind_of, own
from source import Refused, counted, one_of, seen, unexpected, visited
from structs import Structs, place_of
from trees import NONE, UNIT, quoted, tagged

SORTS_OF_DATA = {"Unit": "a unit", "Newtype": "a newtype", "Tuple": "a tuple", "Struct": "an object-like"}


class Enums(Structs):
    """Reads structs and enums."""

    def item(self, item, source):
        """A struct or an enum."""
        if item.name in CONVERTED:
            kind, sent_again = CONVERTED[item.name]
            return sent_again(self.read(kind, source))
        if not item.variants:
            return self.struct(item, source)
        if "untagged" in item.serde:
            return self.untagged(item, source)
        if "tag" not in item.serde:
            return self.external(item, source)
        value = self.adjacent(item, source) if "content" in item.serde else self.internal(item, source)
        name = dict(value[2][1])[item.serde["tag"]][1]
        self.check_sent(item, next(variant for variant in item.variants if variant.wire == name))
        return value

    @staticmethod
    def check_sent(item, variant):
        """Refuses a variant that isn't sent."""
        if not variant.sent:
            raise Refused(f"the enum variant {item.name}::{variant.name} cannot be serialized")

    def variant_of(self, item, source):
        """The variant that a tag names, with its index."""
        readable = [variant for variant in item.variants if variant.read]
        names = [variant.known for variant in readable]
        name = self.name(source, names, "variant")
        meant = [variant for variant in readable if name == variant.known or name in variant.aliases()]
        meant += [variant for variant in readable if "other" in variant.serde]
        if not meant:
            raise Refused(f"unknown variant `{name}`, expected {one_of(names)}")
        return item.variants.index(meant[0]), meant[0]

    # Tagged externally.

    def external(self, item, source):
        """An enum whose variant is the tree itself, a text, or the key of the one entry of a map."""
        tag, data = self.opened(item, source)
        index, variant = self.variant_of(item, source.of(tag))
        held = self.data(item, variant, source, data)
        self.check_sent(item, variant)
        return "enum", item.wire, index, variant.wire, held

    def opened(self, item, source):
        """The tag, and the data: of a variant, ("value", tree) of an entry, or none."""
        tree = self.seen(source)
        if tree[0] == "enum" and (not source.buffer or REFUSES in self.on):
            return ("name", tree[3]), tree[4]
        if tree[0] in ("str", "name"):
            return tree, None
        if tree[0] == "map" and len(tree[1]) == 1:
            return tree[1][0][0], ("value", tree[1][0][1])
        if tree[0] == "map" and source.buffer and TEXTS not in self.on:
            raise Refused("invalid value: map, expected map with a single key")
        raise self.wrong(source, f"an enum variant of {item.wire}", "string or map")

    def data(self, item, variant, source, data):
        """What a variant holds."""
        readers = {"Unit": self.no_data, "Newtype": self.one_value, "Tuple": self.by_places, "Struct": self.by_names}
        return readers[variant.data.style](item, variant, source, data)

    def wrong_data(self, item, variant, source, data):
        """The refusal of data of another sort."""
        style = variant.data.style
        shown = UNIT if data is None else data[1] if data[0] == "value" else source.tree
        if source.buffer and TEXTS not in self.on and shown is not source.tree:
            what = "unit variant" if data is None else unexpected(shown)
            return Refused(f"invalid type: {what}, expected {style.lower()} variant")
        if data is None and OF_TEXT not in self.on:
            style = "Newtype"
        return self.wrong(source.of(shown).buffered(""), f"{SORTS_OF_DATA[style]} enum variant of {item.wire}", "")

    def no_data(self, item, variant, source, data):
        """No data."""
        if data in (None, ("Unit",)):
            return ("Unit",)
        if source.buffer and data[0] == "value" and ALIKE not in self.on:
            self.unit(source.of(data[1]))
            return ("Unit",)
        raise self.wrong_data(item, variant, source, data)

    def one_value(self, item, variant, source, data):
        """One value."""
        if data is None or data[0] not in ("value", "NewType"):
            raise self.wrong_data(item, variant, source, data)
        return "NewType", self.read(kind_of(variant.data.fields[0]), source.of(data[1]))

    def held(self, source, data, sort, style):
        """The items or entries of a variant's data, or none."""
        if data is not None and data[0] == style:
            return data[1] if sort == "seq" else seen(("struct", "", data))[1]
        tree = self.seen(source.of(data[1])) if data is not None and data[0] == "value" else UNIT
        return tree[1] if tree[0] == sort else None

    def by_places(self, item, variant, source, data):
        """Values by place."""
        items = self.held(source, data, "seq", "Tuple")
        if items is None:
            raise self.wrong_data(item, variant, source, data)
        expecting = f"tuple variant {item.name}::{variant.name}"
        self.check_empty(source, items, expecting)
        return "Tuple", self.values(variant.data.fields, source, items, expecting, "fewer elements in array")

    def check_empty(self, source, items, expecting):
        """Refuses an empty sequence of a variant's data in a buffer, in Serde's words."""
        if source.buffer and not items and TEXTS not in self.on:
            raise Refused(f"invalid type: unit value, expected {expecting}")

    def by_names(self, item, variant, source, data):
        """Fields."""
        expecting = f"struct variant {item.name}::{variant.name}"
        items = self.held(source, data, "seq", "none")
        if source.buffer and items is not None and PLACES not in self.on:
            self.check_empty(source, items, expecting)
            return "Fields", self.by_place(variant.data.fields, source, items, expecting, "fewer elements in array")
        entries = self.held(source, data, "map", "Fields")
        if entries is None:
            raise self.wrong_data(item, variant, source, data)
        return "Fields", self.fields(variant.data.fields, source, entries, variant.data.closed)

    # Tagged internally.

    def internal(self, item, source):
        """An enum of which a field names the variant."""
        expecting = f"internally tagged enum {item.name}"
        tree = self.seen(source) if PLACES in self.on else seen(source.tree)
        if tree[0] == "seq" and PLACES not in self.on:
            return self.internal_seq(item, source, tree[1])
        if seen(tree)[0] != "map":
            if TEXTS not in self.on:
                raise Refused(f"invalid type: {visited(source.tree)}, expected {expecting}")
            raise self.wrong(source, f"an object-like struct named {item.wire}", expecting)
        find = self.tag_first if ORDER in self.on else self.tag_within
        variant, others = find(item, source, seen(tree)[1])
        return self.with_others(item, variant, source.buffered("moved"), others)

    def tag_first(self, item, source, entries):
        """The variant by the first tag, and the other entries."""
        return self.tag_of(item, source, [(self.text_of(key), key, tree) for key, tree in entries])

    def tag_of(self, item, source, entries):
        """The same of entries with their names."""
        tag = item.serde["tag"]
        place = place_of(entries, tag)
        if place is None:
            raise Refused(f"missing field `{tag}`")
        _, variant = self.variant_of(item, source.of(entries[place][2]))
        return variant, entries[:place] + entries[place + 1:]

    def tag_within(self, item, source, entries):
        """The same as Serde finds it, in the order of entries."""
        tag, variant, others = item.serde["tag"], None, []
        for key, tree in entries:
            if self.text_of(key) != tag:
                self.check_entry(source, key, tree, tag)
                others.append((self.text_of(key), key, tree))
            elif variant is None:
                variant = self.variant_of(item, source.of(tree))[1]
            else:
                raise Refused(f"duplicate field `{tag}`")
        if variant is None:
            raise Refused(f"missing field `{tag}`")
        return variant, others

    def check_entry(self, source, key, tree, tag):
        """Refuses an entry that Serde's buffer doesn't take."""
        if not source.buffer:
            self.check_buffer(key, f"a type tag `{tag}` or any other value")
            self.check_buffer(tree)

    def internal_seq(self, item, source, items):
        """The enum out of a sequence, which begins with the tag."""
        tag, others = item.serde["tag"], items[1:]
        if not items:
            raise Refused(f"missing field `{tag}`")
        _, variant = self.variant_of(item, source.of(items[0]))
        for tree in () if source.buffer else others:
            self.check_buffer(tree)
        source = source.buffered("moved")
        if variant.data.style == "Unit":
            self.end(source, len(others), 0)
            return tagged(item.wire, variant, tag)
        name, data, expecting = self.holder(item, variant)
        return tagged(name, variant, tag, *self.by_place(data.fields, source, others, expecting))

    def holder(self, item, variant):
        """What holds the fields next to the tag of a variant: the name that is sent, the fields and Serde's words."""
        if variant.data.style == "Struct":
            return item.wire, variant.data, f"struct variant {item.name}::{variant.name}"
        inner = self.shapes[own(variant.data.fields[0].type)]
        return inner.wire, inner.data, f"struct {inner.name}"

    def with_others(self, item, variant, source, others):
        """The variant out of the other entries."""
        tag = item.serde["tag"]
        if variant.data.style != "Unit":
            name, data, _ = self.holder(item, variant)
            entries = [(key, tree) for _, key, tree in others]
            return tagged(name, variant, tag, *self.fields(data.fields, source, entries, data.closed, (tag,)))
        self.check_left([], source, others, variant.data.closed and CLOSED in self.on, (tag,))
        return tagged(item.wire, variant, tag)

    # Tagged adjacently.

    def adjacent(self, item, source):
        """An enum of which a field names the variant, and another holds its value."""
        expecting = f"adjacently tagged enum {item.name}"
        tree = self.seen(source)
        if source.buffer and tree[0] == "seq" and PLACES not in self.on:
            return self.adjacent_seq(item, source, tree[1], expecting)
        entries = self.entries(item, source, expecting)
        read = self.tag_then_content if ORDER in self.on else self.tag_and_content
        return read(item, source, entries)

    def adjacent_seq(self, item, source, items, expecting):
        """The enum out of a sequence of its tag and its content."""
        if not items:
            raise Refused(f"invalid length 0, expected {expecting}")
        _, variant = self.variant_of(item, source.of(items[0]))
        if len(items) == 1:
            raise Refused(f"invalid length 1, expected {expecting}")
        value = self.content(item, variant, source.of(items[1]))
        self.end(source, len(items), 2)
        return value

    def tag_then_content(self, item, source, entries):
        """The first tag, the first content, and then what is left."""
        named = [(self.tag_name(item, source.of(key)), key, tree) for key, tree in entries]
        variant, left = self.tag_of(item, source, named)
        tag, content = item.serde["tag"], item.serde["content"]
        reads = variant.data.style != "Unit" or UNIT_CONTENT not in self.on
        place = place_of(left, content) if reads else None
        if place is None:
            value = self.no_content(item, variant)
        else:
            value = self.content(item, variant, source.of(left.pop(place)[2]))
        self.check_left([tag, content] if reads else [tag], source, left, variant.data.closed)
        return value

    def tag_and_content(self, item, source, entries):
        """The same as Serde reads it, in the order of entries."""
        tag, variant, content, value = item.serde["tag"], None, None, None
        for key, tree in entries:
            name = self.known_name(item, source.of(key))
            if name is not None and (content if name != tag else variant) is not None:
                raise Refused(f"duplicate field `{name}`")
            if name == tag:
                _, variant = self.variant_of(item, source.of(tree))
                value = content and self.content(item, variant, content)
            elif name is not None:
                content = self.content_source(source.of(tree), variant)
                value = variant and self.content(item, variant, content)
        if variant is None:
            raise Refused(f"missing field `{tag}`")
        return value or self.no_content(item, variant)

    def content_source(self, source, variant):
        """What content is read from: where the variant isn't known yet, a buffer."""
        if variant is not None or CONTENT_FIRST in self.on:
            return source
        if not source.buffer:
            self.check_buffer(source.tree)
        return source.buffered("moved")

    def tag_name(self, item, source):
        """The name that a key is, or none where a key of ours is none."""
        if source.tree[0] in ("name", "str"):
            return source.tree[1]
        if NAMES in self.on:
            return None
        names = [quoted(item.serde[key]) for key in ("tag", "content")]
        others = " or ".join(names) if item.variants[0].data.closed else f"{', '.join(names)}, or other ignored fields"
        raise self.wrong(source, "a string", others)

    def known_name(self, item, source):
        """The tag's or the content's name, if a key is one."""
        name, known = self.tag_name(item, source), [item.serde["tag"], item.serde["content"]]
        if name in known:
            return name
        if not item.variants[0].data.closed:
            return None
        if name is None or CLOSED in self.on:
            raise self.unknown(name, source, known)
        raise Refused(f"invalid value: string {quoted(name)}, expected {' or '.join(map(quoted, known))}")

    def content(self, item, variant, source):
        """A variant by what its content is read from."""
        if variant.data.style != "Unit":
            readers = {"Newtype": self.one_content, "Tuple": self.tuple_content, "Struct": self.struct_content}
            value = readers[variant.data.style](item, variant, source)
            return tagged(item.wire, variant, item.serde["tag"], (item.serde["content"], value))
        if UNIT_CONTENT not in self.on and seen(source.tree) not in (UNIT, NONE):
            raise Refused(f"invalid type: {visited(source.tree)}, expected unit variant {item.name}::{variant.name}")
        return tagged(item.wire, variant, item.serde["tag"])

    def one_content(self, _, variant, source):
        """The content of a variant around one value."""
        return self.read(variant.data.fields[0].type, source)

    def tuple_content(self, item, variant, source):
        """The content of a variant of values by place."""
        tree, kinds = self.seen(source), [field.type for field in variant.data.fields]
        expecting = f"tuple variant {item.name}::{variant.name}"
        if tree[0] not in ("seq", "tuple"):
            raise self.wrong(source, f"a tuple with {len(kinds)} elements", expecting)
        return "tuple", self.parts(kinds, source, tree[1], f"{expecting} with {counted(len(kinds))}")

    def struct_content(self, item, variant, source):
        """The content of a variant of values by name, which Serde reads as it is found."""
        tree = seen(source.tree)
        if tree[0] != "map" and TEXTS not in self.on:
            raise Refused(f"invalid type: {visited(source.tree)}, expected struct variant {item.name}::{variant.name}")
        entries = self.entries(variant, source, "")
        return "struct", variant.wire, ("Fields", self.fields(variant.data.fields, source, entries, variant.data.closed))

    def no_content(self, item, variant):
        """A variant without content."""
        tag, content = item.serde["tag"], item.serde["content"]
        if variant.data.style == "Unit":
            return tagged(item.wire, variant, tag)
        if variant.data.several:
            raise Refused(f"missing field `{content}`")
        return tagged(item.wire, variant, tag, (content, self.missing(replace(variant.data.fields[0], wire=content, known=content))))

    # Untagged.

    def untagged(self, item, source):
        """An enum whose variants are tried in their order."""
        if not source.buffer:
            self.check_buffer(source.tree)
        kept = source.buffered("kept")
        for variant in item.variants:
            if variant.data.style == "Unit" and source.tree == NONE and ALIKE not in self.on:
                return UNIT
            try:
                return self.read(variant.held(), kept)
            except Refused:
                pass
        raise Refused(f"data did not match any variant of untagged enum {item.name}")
