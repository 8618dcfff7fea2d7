"""How structs are read."""
from leaves import Leaves
from lines import ALIKE, BOXED, CLOSED, FLAT, NAMES, ORDER, PLACES, TEXTS
from shapes import ARRAY, WHOLE, default_variant, inlined, kind_of, own, takes_rest
from source import Refused, counted, one_of, seen, unexpected, visited
from trees import EMPTY, KINDS, NONE, UNIT, tagged

OF_DURATION = ["secs", "nanos"]  # whose names Serde reads by a visitor of its own, which takes no index


class Structs(Leaves):
    """Reads structs, and the fields of structs and variants."""

    def struct(self, item, source):
        """A struct."""
        data = item.data
        if item.transparent():
            return self.read_alone(item, source)
        readers = {"Unit": self.unit_struct, "Newtype": self.newtype_struct, "Tuple": self.tuple_struct}
        if data.style in readers:
            return "struct", item.wire, readers[data.style](item, source)
        if item.flattens():
            return self.flattened(item, source)
        values = self.named(item, data, source, f"struct {item.name}")
        return "struct", item.wire, ("Fields", values)

    def read_alone(self, item, source):
        """A struct that is read as one field is, and sent as one is."""
        value = self.read(kind_of(item.field_read()), source)
        return value if item.field_sent() is item.field_read() else self.default_of(item.field_sent())

    def unit_struct(self, item, source):
        """A struct without data."""
        tree = self.seen(source)
        empty = source.buffer == "moved" and tree in (("map", ()), ("seq", ())) and ALIKE not in self.on
        if seen(tree) == UNIT or empty:
            return ("Unit",)
        if source.buffer == "moved" and TEXTS not in self.on:
            raise Refused(f"invalid type: {visited(source.tree)}, expected unit struct {item.name}")
        raise self.wrong(source, f"a unit struct named {item.wire}", f"unit struct {item.name}")

    def newtype_struct(self, item, source):
        """A struct around one value."""
        inner = seen(source.tree)
        held = source.of(inner[1]) if inner[0] == "newtype" else source
        return "NewType", self.read(kind_of(item.data.fields[0]), held)

    def tuple_struct(self, item, source):
        """A struct of values by place."""
        tree = self.seen(source)
        if tree[0] == "struct" and tree[2][0] == "Tuple":
            tree = seen(tree)
        if tree[0] != "seq":
            raise self.wrong(source, f"a tuple struct named {item.wire}", f"tuple struct {item.name}")
        return "Tuple", self.values(item.data.fields, source, tree[1], f"tuple struct {item.name}")

    def values(self, fields, source, items, expecting, too_many=None):
        """Those of the values of fields by place that are sent again; a field that isn't read has its default."""
        kinds = [kind_of(field) for field in fields if field.read]
        read = iter(self.parts(kinds, source, items, f"{expecting} with {counted(len(kinds))}", too_many))
        values = [next(read) if field.read else self.default_of(field) for field in fields]
        return tuple(value for field, value in zip(fields, values) if field.sent)

    def named(self, item, data, source, expecting):
        """The fields of a struct by name, each with its value."""
        tree = self.seen(source)
        if source.buffer and tree[0] == "seq" and PLACES not in self.on:
            return self.by_place(data.fields, source, tree[1], expecting)
        return self.fields(data.fields, source, self.entries(item, source, expecting), data.closed)

    def entries(self, item, source, expecting):
        """The entries of a struct or a map."""
        tree = self.seen(source)
        if tree[0] == "map":
            return tree[1]
        if tree[0] == "struct" and tree[2][0] == "Fields":
            return seen(tree)[1]
        raise self.wrong(source, f"an object-like struct named {item.wire}", expecting)

    def by_place(self, fields, source, items, expecting, too_many=None):
        """The fields out of a sequence."""
        values, place, count = [], 0, sum(field.read for field in fields)
        for field in fields:
            if not field.read:
                values.append((field.known, self.default_of(field)))
                continue
            if place < len(items):
                values.append((field.known, self.read(kind_of(field), source.of(items[place]))))
            elif field.serde.get("default", WHOLE) != WHOLE:
                values.append((field.known, self.default_of(field)))
            else:
                raise Refused(f"invalid length {place}, expected {expecting} with {counted(count)}")
            place += 1
        self.end(source, len(items), count, too_many)
        return sent(fields, values)

    def fields(self, fields, source, entries, closed, before=()):
        """The fields out of entries; `before` are other names that ours knows."""
        if ORDER in self.on:
            return self.in_order(fields, source, entries, closed, before)
        values = {}
        for key, tree in entries:
            name = self.field_name(fields, source.of(key), closed, before)
            if name in values:
                raise Refused(f"duplicate field `{name}`")
            if name is not None:
                values[name] = self.read(kind_of(field_of(fields, name)), source.of(tree))
        return sent(fields, [(field.known, values[field.known] if field.read and field.known in values else self.missing(field))
                             for field in fields])

    def field_name(self, fields, source, closed, before):
        """The field that a key names, or none that is known."""
        names = [field.known for field in fields if field.read]
        name = self.name(source, names, "field")
        name = next((field.known for field in fields if name in field.aliases()), name)
        if closed and name not in names:
            raise self.unknown(name, source, names, before)
        return name if name in names else None

    def unknown(self, name, source, names, before=()):
        """The refusal of a key that is none of these names."""
        if name is not None:
            known = [*before, *names] if CLOSED in self.on else names
            return Refused(f"unknown field `{name}`, expected {one_of(known)}")
        if NAMES in self.on:
            return self.wrong(source, "a string", "field identifier")
        return Refused(f"invalid value: {unexpected(source.tree)}, expected field index 0 <= i < {len(names)}")

    def name(self, source, names, sort):
        """The name that a key or a tag is, or none where a field's index or a key of ours is none."""
        key, *parts = source.tree
        if key in ("name", "str"):
            return parts[0]
        if NAMES in self.on:
            if sort == "field":
                return None
            raise self.wrong(source, "a string", "a string")
        if not source.buffer and key == "enum":
            return parts[2]
        if source.buffer and key == "bytes":
            return bytes(parts[0]).decode(errors="replace")
        if source.buffer and key == "num" and parts[0] in ("u8", "u64") and names != OF_DURATION:
            return self.name_at(parts[1], names, sort)
        expecting = one_of(names) if names == OF_DURATION else f"{sort} identifier"
        raise self.wrong(source, "a struct field name or an enum variant", expecting)

    def name_at(self, index, names, sort):
        """The name at an index."""
        if index < len(names):
            return names[index]
        if sort == "field":
            return None
        raise Refused(f"invalid value: integer `{index}`, expected variant index 0 <= i < {len(names)}")

    def in_order(self, fields, source, entries, closed, before=()):
        """The fields in their order, and then what is left."""
        names, values = [field.known for field in fields if field.read], []
        left = [(self.name(source.of(key), names, "field"), key, tree) for key, tree in entries]
        for field in fields:
            place = place_by(left, field) if field.read else None
            value = self.missing(field) if place is None else self.read(kind_of(field), source.of(left.pop(place)[2]))
            values.append((field.known, value))
            if field.aliases() and place_by(left, field) is not None:
                raise Refused(f"duplicate field `{field.known}`")
        self.check_left(names, source, left, closed, before)
        return sent(fields, values)

    def check_left(self, names, source, left, closed, before=()):
        """Refuses what may not be left of entries, each with its name."""
        if closed and left and left[0][0] not in (*before, *names):
            raise self.unknown(left[0][0], source.of(left[0][1]), names, before)
        for name in [left[0][0]] if closed and left else (*before, *names):
            if place_of(left, name) is not None:
                raise Refused(f"duplicate field `{name}`")

    def missing(self, field):
        """What is read where a field has no entry."""
        if "default" in field.serde:
            return self.default_of(field)
        kind = field.type
        while BOXED not in self.on and self.around(kind):
            kind = self.around(kind)
        if kind.name == "Option" and not field.by_function():
            return NONE
        raise Refused(f"missing field `{field.known}`")

    def around(self, kind):
        """What a type is read as where it adds nothing: what a Box or a transparent struct holds, else none."""
        if kind.name == "Box":
            return kind.arguments[0]
        item = self.shapes.get(own(kind))
        return kind_of(item.field_read()) if item and item.transparent() else None

    def default_of(self, field):
        """The default of a field that is sent: what a function of the file gives, or that of its type."""
        if not field.sent:
            return UNIT
        if not field.made:
            return self.default(field.type)
        kind, said = field.type, field.missing.rpartition("≡ ")[2]
        if kind.name in KINDS:
            sort, _, digits = said.rpartition(" ")
            return "num", kind.name, -int(digits) - 1 if sort == "negsuc" else int(digits)
        if kind.name == "bool":
            return "bool", said == "true"
        if kind.name == "String":
            return "str", said[len('(name "'):-len('")')]
        item = self.shapes[own(kind)]
        index = [variant.name for variant in item.variants].index(said.rpartition(".")[2])
        return "enum", item.wire, index, item.variants[index].wire, ("Unit",)

    def default(self, kind):
        """The default of a type."""
        made = {"bool": ("bool", False), "String": ("str", ""), "Option": NONE, "Vec": ("seq", ()), "BTreeMap": ("map", ())}
        if kind.name in KINDS:
            return "num", kind.name, 0
        if kind.name == ARRAY:
            return "tuple", tuple(map(self.default, kind.arguments * kind.count))
        return made[kind.name] if kind.name in made else self.own_default(self.shapes[own(kind)])

    def own_default(self, item):
        """The default of a struct or an enum."""
        if item.variants:
            index = default_variant(item)
            variant = item.variants[index]
            if "tag" in item.serde:
                return tagged(item.wire, variant, item.serde["tag"])
            return "enum", item.wire, index, variant.wire, ("Unit",)
        fields = self.flat_fields(item)
        values = [self.default(field.type) for field in fields]
        if item.transparent():
            return self.default(item.field_sent().type)
        entries = [(field.wire, value) for field, value in zip(fields, values)]
        if item.flattens():
            return "map", tuple((("str", name), value) for name, value in entries)
        data = {"Unit": ("Unit",), "Struct": ("Fields", sent(fields, entries)), "Newtype": ("NewType", *values),
                "Tuple": ("Tuple", tuple(values))}
        return "struct", item.wire, data[item.data.style]

    # A struct with fields of others.

    def flattened(self, item, source):
        """A struct with flattened fields."""
        tree = self.seen(source)
        if tree[0] != "map":
            raise self.wrong(source, "a map", f"struct {item.name}")
        read = self.in_place if FLAT in self.on else self.collected
        return "map", read(item, source, tree[1])

    def flat_fields(self, item):
        """The fields, of one that is flattened those inside it."""
        parts = [(field, inlined(field, self.shapes)) for field in item.data.fields]
        return [leaf for field, part in parts for leaf in (self.flat_fields(part) if part else [field])]

    def in_place(self, item, source, entries):
        """The fields as ours reads them: those inside others in their place, and then the rest."""
        leaves = self.flat_fields(item)
        named = [leaf for leaf in leaves if not takes_rest(leaf, self.shapes)]
        values = dict(self.fields(named, source, entries, False))
        names = [name for leaf in named if leaf.read for name in (leaf.known, *leaf.aliases())]
        left = tuple(entry for entry in entries if self.text_of(entry[0]) not in names)
        every = []
        for leaf in leaves:
            if leaf not in named:
                rest = spliced(self.rest(leaf.type, source, left))
                every += rest * leaf.sent
            elif leaf.wire in values:
                every.append((("str", leaf.wire), values[leaf.wire]))
        return tuple(every)

    def rest(self, kind, source, left):
        """What is read as a type out of what is left: of a struct and beside an adjacent tag Serde looks at the names alone."""
        if kind.name == "Option":
            try:
                return "some", self.rest(kind.arguments[0], source, left)
            except Refused:
                return NONE
        if kind.name == "Box":
            return self.rest(kind.arguments[0], source, left)
        item, kept = self.shapes.get(own(kind)), source.buffered("kept").of(("map", left))
        if FLAT in self.on or item is None or not (item.data.named or "content" in item.serde):
            return self.read(kind, kept)
        if item.flattens():
            return "map", self.collected(item, kept, left)
        names = [item.serde[key] for key in ("tag", "content") if key in item.serde] or [
            field.known for field in item.data.fields if field.read]
        return self.item(item, source.buffered("moved").of(("map", self.those(left, names))))

    def those(self, entries, names):
        """The entries of these names."""
        return tuple(entry for entry in entries if self.text_of(entry[0]) in names)

    def collected(self, item, source, entries):
        """The fields as Serde reads them: its own first, then others out of what is left in a buffer."""
        its_own = [field for field in item.data.fields if "flatten" not in field.serde]
        values, left = {}, []
        for key, tree in entries:
            name = self.own_name(its_own, source.of(key))
            if name is None:
                self.check_buffer(tree)
                left.append((("str", key[3]) if key[0] == "enum" else key, tree))
            elif name in values:
                raise Refused(f"duplicate field `{name}`")
            else:
                values[name] = self.read(kind_of(field_of(its_own, name)), source.of(tree))
        for field in its_own:
            if field.wire not in values:
                values[field.wire] = self.missing(field)
        return self.with_flat(item, source, values, tuple(left))

    def own_name(self, its_own, source):
        """The name of a field of its own that a key is, or none."""
        key = source.tree
        if source.buffer and key[0] == "num" and key[1] in ("u8", "u64"):
            return None
        name = self.name(source, [], "field")
        return name if name in [field.wire for field in its_own if field.read] else None

    def with_flat(self, item, source, values, left):
        """All fields in order, those of others out of what is left."""
        every = []
        for field in item.data.fields:
            part = inlined(field, self.shapes)
            if "flatten" not in field.serde:
                found = sent([field], [(field.wire, values[field.wire])])
            elif part is None:
                rest = spliced(self.rest(field.type, source, left))
                every += rest * field.sent
                continue
            elif part.flattens():
                every += self.collected(part, source.buffered("kept"), left)
                continue
            else:
                taken = self.those(left, [leaf.known for leaf in part.data.fields if leaf.read])
                left = tuple(entry for entry in left if entry not in taken)
                found = self.fields(part.data.fields, source.buffered("moved"), taken, part.data.closed)
            every += [(("str", name), value) for name, value in found]
        return tuple(every)

    def text_of(self, key):
        """The text that a key is, or none."""
        if key[0] in ("name", "str"):
            return key[1]
        if key[0] == "bytes" and NAMES not in self.on:
            return bytes(key[1]).decode(errors="replace")
        return None


def spliced(tree):
    """The entries of a value that is sent among those of what holds it."""
    if tree == NONE:
        return ()
    if tree[0] == "some":
        return spliced(tree[1])
    if tree[0] == "map":
        return tree[1]
    return spliced(tree[2][1]) if tree[2][0] == "NewType" else tuple((("str", name), value) for name, value in tree[2][1])


def field_of(fields, name):
    """The field of this name."""
    return next(field for field in fields if field.read and field.known == name)


def place_of(entries, name):
    """Where the first entry of this name is, or none."""
    return next((place for place, (found, _, _) in enumerate(entries) if found == name), None)


def place_by(entries, field):
    """Where the first entry is that has the first of a field's names which any has, or none."""
    places = [place_of(entries, name) for name in [field.known, *field.aliases()]]
    return next((place for place in places if place is not None), None)


def sent(fields, values):
    """The fields that are sent again: all but those that are left out."""
    return tuple((field.wire, entry[1]) for field, entry in zip(fields, values) if field.sent and not (field.skips and is_left_out(field, entry[1])))


def is_left_out(field, value):
    """Whether a field is left out where it has this value: an empty one, or the one that its test is for."""
    if field.by_function():
        return value == NONE
    if not field.test:
        return value in EMPTY
    said = field.test.fact.rpartition("≡ ")[2].rpartition(" ")
    return value[-1] == (said[2] == "true" if value[0] == "bool" else -int(said[2]) - 1 if said[0] == "negsuc" else int(said[2]))
