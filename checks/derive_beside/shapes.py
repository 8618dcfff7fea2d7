"""The types that files declare, as tools/serde_derive reads them."""
import sys
from dataclasses import replace
from pathlib import Path

from source import Refused

TOP = Path(__file__).parents[2]
sys.dont_write_bytecode = True
sys.path.insert(0, str(TOP / "tools"))

from serde_derive.attributes import DEFAULT  # noqa: E402
from serde_derive.module import read  # noqa: E402
from serde_derive.names import name_item  # noqa: E402
from serde_derive.types import ARRAY, Type  # noqa: E402, F401

WHOLE = "by the struct"
# how types of the standard library are sent, and read where no text stands for them, as declarations
STANDARD = """
#[derive(Serialize, Deserialize)]
#[serde(deny_unknown_fields)]
pub struct Duration { secs: u64, nanos: u32 }

#[derive(Serialize, Deserialize)]
pub enum IpAddr { V4(Ipv4Addr), V6(Ipv6Addr) }
"""
# the addresses among them, each by what its texts are called
ADDRESSES = {"IpAddr": "IP", "Ipv4Addr": "IPv4", "Ipv6Addr": "IPv6"}
OCTETS = {"Ipv4Addr": Type(ARRAY, (Type("u8"),), count=4), "Ipv6Addr": Type(ARRAY, (Type("u8"),), count=16)}
# by the functions that fields name, what they are read as, and how what was read is sent again
RULES = {"rules::deserialize": (Type("u8"), lambda number: ("str", "yes" if number[2] else "no")),
         "rules::read_text": (Type("String"), lambda text: text),
         "boards::send": (Type("Counts"), lambda counts: counts)}


def unless(refused, text):
    """The same value, or the refusal of one for which this holds."""
    def checked(value):
        if refused(value[-1]):
            raise Refused(text)
        return value

    return checked


# what the types of `converted` are read as, and how what was read is sent again
CONVERTED = {"Urgency": (Type("u8"), lambda number: (*number[:2], min(number[2], 2))),
             "Percent": (Type("u8"), unless(lambda number: number > 100, "more than 100")),
             "Reader": (Type("String"), lambda text: text)}


def shapes_of(files):
    """The structs and enums of these files, and those of STANDARD, by their names, with the names that are sent; of one with parameters each that
    another holds, by its name with its arguments. A field that has a default by its struct's attribute has `default` there
    as `WHOLE`."""
    shapes = {}
    for text in [*(Path(file).read_text(encoding="utf-8") for file in files), STANDARD]:
        declared = read(text)
        for item in declared.items:
            declared.functions.variants[item.name] = {
                variant.name: [field.type for field in variant.data.fields] for variant in item.variants}
        for item in declared.items:
            its_own = [field for field in item.fields() if "default" in field.serde]
            for refused in name_item(item, declared.functions):
                raise refused
            shapes[item.name] = item
            for field in item.fields() if "default" in item.serde else ():
                if not any(field is one for one in its_own):
                    field.serde["default"] = WHOLE
    return with_arguments(shapes)


def with_arguments(declared):
    """The types without parameters, and of the others each that is held, with its arguments."""
    shapes = {name: item for name, item in declared.items() if not item.parameters}
    left = [field.type for item in shapes.values() for field in item.fields()]
    while left:
        kind = left.pop()
        left += kind.arguments
        generic = declared.get(bare(kind))
        if generic and generic.parameters and own(kind) not in shapes:
            shapes[own(kind)] = generic.at(kind)
            left += [field.type for field in shapes[own(kind)].fields()]
    return shapes


def alone(shapes):
    """The types of the files that have no arguments."""
    return [item for name, item in shapes.items() if name == item.name and name not in ("Duration", "IpAddr")]


def kind_of(field):
    """The type that a field is read as, where a function reads or sends it one of RULES."""
    return Type(field.function("deserialize") or field.function("serialize")) if field.by_function() else field.type


def inlined(field, shapes):
    """The struct whose fields stand in the place of a flattened field; none where that takes the rest."""
    item = shapes.get(own(field.type)) if "flatten" in field.serde and field.sent else None
    if not item or item.variants or not item.data.named or item.data.closed or item.transparent():
        return None
    return None if any(takes_rest(one, shapes) for one in item.data.fields) else item


def takes_rest(field, shapes):
    """Whether a flattened field is read of what no other field takes."""
    return "flatten" in field.serde and inlined(field, shapes) is None


def bare(kind):
    """The name of a type, without its path and its arguments."""
    return kind.name.split("::")[-1]


def own(kind):
    """The name of a type of one's own, without its path, with its arguments."""
    return replace(kind, name=bare(kind)).rust()


def default_variant(item):
    """The index of the variant that an enum's Default is."""
    return next(index for index, variant in enumerate(item.variants) if DEFAULT in variant.head)
