"""What a declaration is refused for by itself."""
import re
from typing import Iterator, List, Set

from .attributes import OWN_FUNCTIONS, SKIP
from .declarations import Field, Item, NotRust, Refused
from .files import File
from .functions import Functions
from .homes import extent, from_crate, placed, placed_in
from .types import LEAVES, RESERVED
from .words import CRATES, SEEN, TAKEN, WORDS

# what names no type, field or variant: words of Rattle's, and names that it makes itself
NO_FIELDS = {"ghost", "requires", "ensures", "deriving", "gen"}
NO_VARIANTS = NO_FIELDS | {"the_row", "the_data", "TheLaws", "TheVariants"}
NOT_TYPES = {*TAKEN, *WORDS, *SEEN, *LEAVES, *CRATES, *NO_FIELDS, "str", "f32", "f64", "tuple", "Lib", "Prim", "Self",
             "TheOwn", "TheVariants", "TheBound", "TheImpl", "TheLinks", "TheLaws"}
# what may stand beside `flatten`
BESIDE_FLATTEN = {"flatten", "default", "skip_serializing_if", *SKIP}
MOST_WORK, WORK_OF_TYPE = 1_000_000, 250
MOST_SKIPPED = 64  # code counts the fields that are sent by calls in calls
VALUES = {"alloc", "serializer", "fields", "from", "inside", "parts", "access", "variant", "tag"}
# those of impls that convert
CONVERTED = {"read", "sent", "made", "refused", "text"}


def renamed(name: str, what: str) -> str:
    """What to write where a name can't be kept."""
    return f"give the {what} another name, and this one by `#[serde(rename = \"{name}\")]`"


def check_names(item: Item) -> Iterator[Refused]:
    """Refuses names that the module could not write."""
    if item.name in NOT_TYPES:
        yield Refused(item.line, f"the name `{item.name}` is one that the module uses itself:"
                      f" {renamed(item.name, 'type')}", item.name)
    for where, f in placed(item):
        if f.name in NO_FIELDS:
            yield Refused(f.line, f"`{f.name}` is a word of Rattle's: {renamed(f.name, 'field')}", where)
    for v in item.variants:
        if v.name in NO_VARIANTS:
            yield Refused(v.line, f"`{v.name}` is a word of Rattle's: {renamed(v.name, 'variant')}", f"{item.name}.{v.name}")


def check_values(items: List[Item]) -> Iterator[Refused]:
    """Refuses a struct without field names that is called as values of the module are."""
    values = VALUES | {place for item in items for data in item.parts() for place in data.places()}
    values |= CONVERTED if any(item.conversions for item in items) else set()
    for item in items:
        if item.sort == "struct" and not item.data.named and (item.name in values or re.fullmatch(r"x\d+", item.name)):
            yield Refused(item.line, f"values are called `{item.name}` too, which Rust does not tell from this struct:"
                          f" {renamed(item.name, 'type')}", item.name)


def check_attributes(item: Item, functions: Functions) -> Iterator[Refused]:
    """Refuses attributes of Serde's that don't go with the declaration."""
    reasons = []
    flatten = "serde's `flatten` is covered in structs with named fields and without `deny_unknown_fields`"
    yield from (Refused(f.line, f"{flatten}: hold such a struct in the variant", f"{item.name}.{v.name}.{f.name}")
                for v in item.variants for f in v.data.fields if "flatten" in f.serde)
    if item.flattens() and not item.variants and not item.data.named:
        reasons.append(f"{flatten}: give the fields of this one names, or delete `flatten`")
    elif item.flattens() and not item.variants and "deny_unknown_fields" in item.serde:
        reasons.append(f"{flatten}: delete one of them")
    if any(sum("skip_serializing_if" in f.serde for f in data.fields) > MOST_SKIPPED for data in item.parts()):
        reasons.append(f"more than {MOST_SKIPPED} fields that may be left out are not covered: put some into a struct of their own")
    if item.sort == "struct":
        reasons += [f"serde's `{key}` is for enums: delete it"
                    for key in sorted({"rename_all_fields", "untagged", "content"} & set(item.serde))]
        if "tag" in item.serde:
            reasons.append("serde's `tag` on a struct is not covered: write an enum of one variant, which has the struct's name")
    if "default" in item.serde and (item.sort != "struct" or not item.data.named):
        names = "give its fields names, or " * (item.sort == "struct" and bool(item.data.fields))
        reasons.append(f"serde's `default` on a container is covered on structs with named fields: {names}delete it")
    elif "default" in item.serde and not (item.defaults or item.serde["default"] or f"{item.name}::default" in functions.named):
        unread = ", as an impl on a type with parameters is not read" * bool(item.parameters or item.lifetimes)
        reasons.append(f"serde's `default` on a container is covered where it derives Default{unread}: derive that, or write"
                       " `default` on each field")
    if item.transparent():
        others = sorted(set(item.serde) - {"transparent"})
        reasons += [f"such attributes don't go together: `transparent` and `{key}`: delete one of them" for key in others]
        ways = {"Serialize": [f for f in item.data.fields if f.sent], "Deserialize": [f for f in item.data.fields if f.read]}
        if item.sort != "struct" or any(len(ways[trait]) != 1 for trait in ways if trait in item.derives):
            skip = ", or skip all fields but one" * (len(item.data.fields) > 1)
            reasons.append(f"serde's `transparent` is for structs of one field beside skipped ones: delete it{skip}")
    if ("content" in item.serde) > ("tag" in item.serde) or {"tag", "untagged"} <= set(item.serde):
        reasons.append("such attributes don't go together: write `tag`, `tag` and `content`, or `untagged`")
    yield from (Refused(item.line, reason, item.name) for reason in reasons)
    for where, f, *around in placed_in(item):
        reasons = check_field(item, f) if all(v.sent or v.read for v in around) else ()
        yield from (Refused(f.line, reason, where) for reason in reasons)


def check_field(item: Item, f: Field) -> Iterator[str]:
    """Why attributes of Serde's don't go with a field of this item."""
    for key in sorted(set(f.serde) - BESIDE_FLATTEN) if "flatten" in f.serde else ():
        if key in OWN_FUNCTIONS:
            yield (f"serde's `{key}` beside `flatten` is not covered, as its function would have to send or read entries among"
                   " others: delete one of them, or hold a map or a struct that the value is made of")
        else:
            yield f"such attributes don't go together: `flatten` and `{key}`: delete one of them"
    if item.transparent() and (f.sent or f.read):
        passed = {*OWN_FUNCTIONS, *SKIP, *["default"] * (not f.read)}
        yield from (f"serde's `{key}` on a field is not covered where its struct is `transparent`: delete it"
                    for key in sorted(set(f.serde) - passed))
    if "flatten" not in f.serde:
        yield from check_functions(item, f, [key for key in OWN_FUNCTIONS if key in f.serde])


def check_functions(item: Item, f: Field, keys: List[str]) -> Iterator[str]:
    """Why functions of the user's, which these attributes name, don't read or send a field of this item."""
    if "with" in keys[:1] and len(keys) > 1:
        yield f"such attributes don't go together: `with` and `{keys[1]}`: delete one of them"
    elif keys and f.name.isdigit() and {"tag", "untagged"} & set(item.serde):
        yield f"serde's `{keys[0]}` in an enum with `tag` or `untagged` is covered in fields with names: give them names"
    elif keys and item.parameters:
        yield f"serde's `{keys[0]}` is not covered in a type with parameters: hold the field in another struct"


def check_visible(item: Item, here: List[str]) -> Iterator[Refused]:
    """Refuses what is public in a module that isn't around this one."""
    for where, one in [(item.name, item), *placed(item)]:
        path = re.match(r"pub\(in (.*)\)", one.visible)
        found = from_crate(path.group(1).split("::"), here) if path else here
        if not found or here[:len(found)] != found:
            yield Refused(one.line, f"`{one.visible.strip()}` names no module around this one: name one, or write"
                          " `pub(crate)`", where)


def check_twice(items: List[Item]) -> Iterator[Refused]:
    """Refuses two types of one name, and two whose names differ in the case of letters alone. One that is refused for
    itself may be there instead of the other, by `cfg`."""
    seen = {}
    for item in (item for item in items if item.covered):
        other = seen.setdefault(item.name.lower(), item)
        if other is not item and other.name == item.name:
            yield NotRust(item.line, f"another type has this name too (line {other.line})", item.name)
        elif other is not item:
            yield Refused(item.line, f"Rattle does not tell it from `{other.name}` (line {other.line}), as it writes a file"
                          f" for each: {renamed(item.name, 'type')}", item.name)


def check_others(file: File) -> Iterator[Refused]:
    """Refuses a type that has the name of something else in the file."""
    others = {*file.uses, *file.aliases, *file.passed}
    yield from (NotRust(item.line, "something else in this file has this name too", item.name)
                for item in file.items if item.covered and item.name in others)


def check_parameters(item: Item, others: Set[str]) -> Iterator[Refused]:
    """Refuses names of parameters that the module could not write, or that others in the file have, and parameters that nothing
    in the type has."""
    for name in item.parameters if item.covered else ():
        if name in NOT_TYPES or name in RESERVED or name in others or not name[:1].isupper():
            yield Refused(item.line, f"the name `{name}` of a parameter is not covered: give it one that begins with a"
                          " capital, and that nothing else has", item.name)
        elif not any(name in data.parameters() for data in item.parts()):
            yield NotRust(item.line, f"the parameter `{name}` is in no field", item.name)
    yield from (NotRust(item.line, f"the lifetime `{name}` is in no field", item.name) for name in item.lifetimes
                if item.covered and not any(name in f.type.borrows() for f in item.fields()))


def check_parts(item: Item) -> Iterator[Refused]:
    """Refuses two fields or variants of one name."""
    groups = [[(v, f"{item.name}.{v.name}") for v in item.variants], [(f, f"{item.name}.{f.name}") for f in item.data.fields]]
    groups += [[(f, f"{item.name}.{v.name}.{f.name}") for f in v.data.fields] for v in item.variants]
    for group in groups:
        seen = {}
        for one, where in group:
            other = seen.setdefault(one.name, one)
            if other is not one and (one.raw or one.name) == (other.raw or other.name):
                yield NotRust(one.line, f"two are called `{one.name}`", where)
            elif other is not one:
                yield Refused(one.line, f"two are written as `{one.name}`: give one another name", where)


def check_work(items: List[Item]) -> Iterator[Refused]:
    """Refuses the first type with which a file would take minutes to write: the text grows with the types, and with the square
    of fields and variants."""
    work = 0
    for item in items:
        inside = [f for data in item.parts() for f in data.leaves()]
        work += WORK_OF_TYPE + len(item.variants) ** 2 + max([len(data.leaves()) for data in item.parts()]) * sum(
            parts * levels for parts, levels in (extent(f.type) for f in inside))
        if work > MOST_WORK:
            yield Refused(item.line, "with this type the file has too many types, fields and variants: move it to another",
                          item.name)
            return


def check(file: File, module: List[str]) -> Iterator[Refused]:
    """All that is refused before types are looked at, in the module of this path."""
    yield from check_twice(file.items)
    yield from check_others(file)
    yield from check_values(file.items)
    others = {*file.uses, *file.aliases, *file.passed, *(item.name for item in file.items)}
    for item in file.items:
        yield from check_parts(item)
        yield from check_names(item)
        yield from check_parameters(item, others)
        yield from check_visible(item, ["crate", *module])
        yield from check_attributes(item, file.functions)
