"""The names that are sent, and what stands for a field that is missing."""
import re
from typing import Iterator, List, Optional, Sequence, Tuple

from .attributes import why_unsaid
from .calls import ANYTHING, STD, is_path
from .cases import CASES, same
from .declarations import Data, Field, Item, Named, NotRust, Refused, Value, Variant, absent_of
from .functions import EMPTY, ONE_VALUE, Functions
from .tokens import LONGEST, Token, shown
from .types import SKIPS


BY_TYPE = re.compile(r"(?:(?:::)?(?:std|core)::default::)?Default::default")
ALONE = "serde's `default` by `Default::default` is not covered: write `default` alone"
ELSEWHERE = "name one of another module from `crate` on"


def name_item(item: Item, functions: Functions) -> Iterator[Refused]:
    """Gives an item, its variants and its fields the names that are sent and read, and tells what is refused of them."""
    case = item.serde.get("rename_all")
    if "default" in item.serde and item.data.named:
        yield from default_fields(item, functions)
    for data in item.parts():
        data.closed = "deny_unknown_fields" in item.serde
    for key in ("tag", "content"):
        if key in item.serde:
            yield from check_sent(item.serde[key], item.line, item.name)
    variants = [(f"{item.name}.{v.name}", v) for v in item.variants]
    yield from name_each([(item.name, item)], None, 0)
    if item.wire != item.known:
        yield Refused(item.line, "serde's `rename` by direction is covered on fields and variants: give one name", item.name)
    yield from name_each(variants, case, 1)
    yield from check_tags(item, variants)
    for where, v in variants:
        of_fields = v.serde.get("rename_all", item.serde.get("rename_all_fields"))
        refused = list(name_fields(where, v.data, of_fields, functions, item.ways(v)))
        yield from refused if v.sent or v.read else ()
    yield from name_fields(item.name, item.data, case, functions, item.derives)


def twice(one: Named, alias: str) -> str:
    """What is said of an alias that is taken: by what has it itself, or by another."""
    if alias == one.known or one.aliases().count(alias) > 1:
        return f"it is read by the name `{alias}` already: delete the alias"
    return f"two are called `{alias}`: give one another name"


def check_aliases(fields: List[Tuple[str, Field]], named: bool) -> Iterator[Refused]:
    """Refuses aliases that are names too, or of what isn't read by name."""
    taken = {f.known for _, f in fields if f.read}
    for where, f in fields:
        for alias in f.aliases():
            yield from check_sent(alias, f.line, where)
            if not (named and f.read):
                yield Refused(f.line, "serde's `alias` is for fields with names that are read: delete it", where)
            elif alias in taken:
                yield Refused(f.line, twice(f, alias), where)
            taken.add(alias)


def check_tags(item: Item, variants: List[Tuple[str, Variant]]) -> Iterator[Refused]:
    """Refuses aliases that are names too, and a variant for other tags that holds something, or isn't alone."""
    taken = {v.known for v in item.variants if v.read}
    for where, v in variants:
        for alias in v.aliases():
            yield from check_sent(alias, v.line, where)
            if alias in taken:
                yield Refused(v.line, twice(v, alias), where)
            taken.add(alias)
    others = [(where, v) for where, v in variants if "other" in v.serde]
    for where, v in others:
        if v.data.fields or len(others) > 1 or not v.read:
            yield Refused(v.line, "serde's `other` is for one variant that holds nothing, and is read: delete it", where)
        elif v is not item.variants[-1]:
            yield NotRust(v.line, "serde's `other` is for the last variant: move this one to the end", where)
    if variants and not any(v.read for v in item.variants):
        yield Refused(item.line, "an enum of which no variant is read is not covered: have one read", item.name)


def default_fields(item: Item, functions: Functions) -> Iterator[Refused]:
    """Gives the fields of a struct the defaults that it has: those of their types where it derives Default."""
    path = item.serde["default"] or f"{item.name}::default"
    by_function = item.serde["default"] or (not item.defaults and path in functions.named)
    given = functions.fields_given(path, item.name) if by_function else {}
    by_container = [f for f in item.data.fields if not {"default", "flatten"} & set(f.serde)]
    for f in by_container:
        f.serde["default"] = ""
        if given:
            yield from default_in(f"{item.name}.{f.name}", f, given.get(f.name, ([], "")), path, functions)
    if by_function and by_container and not given:
        why = ALONE if BY_TYPE.fullmatch(path) else f"its default is not covered{functions.why_no_fields(path, item.name)}"
        yield Refused(item.line, why, item.name)


def default_in(where: str, f: Field, given: Tuple[List[Token], str], path: str, functions: Functions) -> Iterator[Refused]:
    """Gives a field the value that a function gives for it in the struct: these tokens, in the impl of an owner."""
    value = functions.value(given[0], f.type, given[1])
    if value:
        take_value(f, value)
    else:
        has = f"has `{shown(given[0])}`" if given[0] else "has none"
        yield Refused(f.line, f"its default is not covered, as `{path}` {has}: write there one value, {ONE_VALUE}, or above the field"
                      " `default = \"..\"` with the path of a function of another module", where)


def take_value(f: Field, value: Value) -> None:
    """Gives a field this value, where it is missing."""
    f.missing, f.made = value.fact, value.code * (value != EMPTY.get(f.type.name))


def default_by(where: str, f: Field, path: str, functions: Functions) -> Iterator[Refused]:
    """Gives a field the value that a function gives for it."""
    value = functions.given(path, f.type)
    if value:
        take_value(f, value)
    elif is_path(path, functions.uses):
        f.missing, f.maker = ANYTHING, path
    elif BY_TYPE.fullmatch(path):
        yield Refused(f.line, ALONE, where)
    elif path.lstrip(":").split("::")[0] in STD and path not in functions.named:
        yield Refused(f.line, f"`{path}` is not covered as a default of `{f.type.written()}`: write in this file a function that gives"
                      f" one value, {ONE_VALUE}, or {ELSEWHERE}", where)
    else:
        yield Refused(f.line, f"its default is not covered{functions.why_no_value(path)}, or {ELSEWHERE}", where)


def is_derived(f: Field, functions: Functions) -> bool:
    """Whether the default of a field is the Default that its type derives in this file."""
    path = f.serde.get("default", "")
    return f.type.name in functions.derived and bool(path == f"{f.type.name}::default" or BY_TYPE.fullmatch(path))


def name_fields(holder: str, data: Data, case: Optional[str], functions: Functions, derives: List[str]) -> Iterator[Refused]:
    """Names the fields of what has this path, and gives those that may be missing what stands for them, as far as a type
    that derives this asks."""
    fields = [(f"{holder}.{f.name}", f) for f in data.fields]
    for where, f in fields:
        if data.style == "Newtype" and not (f.sent and f.read):
            yield Refused(f.line, "serde's `skip` is not covered on a value that stands alone: delete it, or what holds the"
                          " value", where)
        elif "default" in f.serde and f.read and not data.named:
            yield Refused(f.line, "serde's `default` is covered in fields with names: give them names", where)
        if not f.read:
            f.serde.setdefault("default", "")
        if is_derived(f, functions):
            f.serde["default"] = ""
        may_be_missing = data.named or not f.read
        if f.serde.get("default") and "Deserialize" in derives and may_be_missing:
            yield from default_by(where, f, f.serde["default"], functions)
        elif not f.missing and may_be_missing and (
                "default" in f.serde or (f.type.name == "Option" and not f.function("deserialize"))):
            value = None if f.read else functions.initial(f.type)
            f.missing, f.made = value or (absent_of(f.type), "")
        if "skip_serializing_if" in f.serde and "Serialize" in derives:
            yield from check_skipped(where, f, data, functions)
            f.skips = f.sent
    yield from name_each([one for one in fields if data.named and "flatten" not in one[1].serde], case, 0)
    yield from check_aliases(fields, data.named)


def check_skipped(where: str, f: Field, data: Data, functions: Functions) -> Iterator[Refused]:
    """Finds the test of what is left out, and refuses one that isn't that of the field's type, and is no function of the file."""
    test = re.sub(r"^(?:::)?(?:std|core|alloc)::(?:\w+::)+(?=[A-Z])", "", f.serde["skip_serializing_if"].replace(" ", ""))
    known = SKIPS.get(f.type.name)
    if f.type.name == "&[]" and re.fullmatch(r"<\[.+\]>::is_empty", test):
        test = SKIPS["&[]"]
    f.test = functions.tested(f.serde["skip_serializing_if"], f.type)
    if not data.named:
        yield Refused(f.line, "serde's `skip_serializing_if` is covered in fields with names: give them names", where)
    elif not f.test and (not known or (test != known and (test, f.type.name) != ("str::is_empty", "String"))):
        if is_path(test, functions.uses):
            f.tester = test
        else:
            yield Refused(f.line, "serde's `skip_serializing_if` so is not covered: Option::is_none is, Duration::is_zero,"
                          " `is_empty` of String, Vec, VecDeque, slices, maps and sets, each on a field of its type, a function of this"
                          " file that compares with one value, as `*n == 0`, and one of another module that is named from `crate` on", where)


def check_sent(name: str, line: int, where: str) -> Iterator[Refused]:
    """Refuses a name that contracts can't hold."""
    if not re.fullmatch(r"[ !#-\[\]-~]+", name):
        yield Refused(line, why_unsaid(name), where)
    elif len(name) > LONGEST:
        yield Refused(line, f"a name of more than {LONGEST} letters is not covered: shorten it", where)


def directions(value: Optional[str]) -> Tuple[str, str]:
    """The name or case for sending, and the one for reading; empty where there is none."""
    parts = (value or "").split("\n")
    return parts[0], parts[-1]


def name_each(all_named: Sequence[Tuple[str, Named]], case: Optional[str], place: int) -> Iterator[Refused]:
    """Names things of one place, each with its path, which have to differ; the place is where CASES has what cases make of
    them. What is refused of both names is told once."""
    told = set()
    for way, attribute in enumerate(("wire", "known")):
        by_case, taken = CASES.get(directions(case)[way], (same, same))[place], set()
        for where, one in all_named:
            name = directions(one.serde.get("rename"))[way] or by_case(one.raw or one.name)
            setattr(one, attribute, name)
            refused = list(check_sent(name, one.line, where))
            used = one.read if way else one.sent
            if used and name in taken:
                refused.append(Refused(one.line, f"two are called `{name}`: give one another name by `rename`", where))
            taken |= {name} if used else set()
            yield from (why for why in refused if (where, why.reason) not in told)
            told |= {(where, why.reason) for why in refused}
