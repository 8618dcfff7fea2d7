"""The whole module: what it uses, declarations and impls."""
import re
from typing import Callable, Dict, Iterable, Iterator, List, Optional, Set, Tuple, Union

from .adjacent import AdjacentWriter
from .attributes import SERDE, doc_line
from .calls import settle_calls
from .checks import check, check_work
from .conversions import check_hidden, read_members, sent_members, settle_conversions, take_conversions
from .declarations import Item, Refusals, Refused
from .defaults import settle_defaults
from .derives import check_derives, check_missing
from .elsewhere import elsewhere
from .enums import EnumWriter
from .files import File, Reader
from .functions import CASES
from .homes import Homes
from .literals import with_names
from .names import name_item
from .nested import NestedWriter
from .nested_checks import check_nested
from .sizes import check_arrays, check_hashed, check_references, check_rows, check_sizes, check_unread
from .structs import StructWriter, TransparentWriter
from .text import ghost
from .tagged import TaggedWriter, check_tagged
from .types import CBOR, LT_DE, NOT_NULL, READ, TRIP, Type, angled, in_term
from .unique import KINDS, name_cases, name_functions
from .untagged import UntaggedWriter, check_untagged
from .words import ALIASES, METHODS, NESTED_ITEMS, NESTED_WORDS, SEEN, TOLD, TOLD_WORDS, TRIED_WORDS, USES, WORDS, words_in, words_of

Writer = Union[StructWriter, EnumWriter]
TRAITS = dict(zip(KINDS, ("Serialize", "SendEntries", "RoundTrip", "CborRoundTrip", "NotNull", "Ord", "Eq")))


def names(text: str, word: str) -> bool:
    """Whether a text names a member of what is called by this word."""
    at = text.find(f"{word}.")
    while at > 0 and (text[at - 1].isalnum() or text[at - 1] == "_"):
        at = text.find(f"{word}.", at + 1)
    return at >= 0


def owns(item: Item) -> List[Type]:
    """The own types whose laws the impls of an item name: those that it, or a type through which it contains itself, holds, and
    those in a type with arguments."""
    found = list(dict.fromkeys(own for one in item.cycle or [item] for own in one.owns()))
    for own in found:
        found += [one for one in own.laws_of(own).item.owns() if one not in found] if own.laws_of else []
    return found


def impl(item: Item, trait: str, members: List[str], *given: str) -> str:
    """An impl with these parameters, and with the laws of own types that it names brought into it."""
    body = "\n\n".join(members)
    laws = [f"ghost use {own.home.format('contracts')}.{own.declared}{kind}.TheImpl.Laws as {word};\n"
            for own in owns(item) for suffix, kind in TRAITS.items()
            if names(body, word := f"{own.called}_{suffix}")]
    return f"impl{angled(*given)} {trait} for {item.itself().rust()} {{\n{''.join(dict.fromkeys(laws))}\n{body}\n}}\n"


def writer_of(item: Item) -> Writer:
    """What writes the impls of a covered item."""
    if item.cycle:
        return NestedWriter.of(item)
    if not item.variants:
        return TransparentWriter(item) if item.transparent() else StructWriter(item)
    sorts = {"untagged": UntaggedWriter, "content": AdjacentWriter, "tag": TaggedWriter}
    return next((sorts[key] for key in sorts if key in item.serde), EnumWriter)(item)


def laws_of(item: Item, t: Type) -> Writer:
    """What writes the laws of an item with the arguments of a type."""
    return writer_of(item.held_at(t))


def impls(item: Item, writer: Writer, cbor: bool) -> Iterator[str]:
    """The impls of the traits that an item derives, and for CBOR."""
    if not item.conversions or SERDE & set(item.derives):
        yield from writer.functions()
    for one in item.conversions:
        if one.trait == "Serialize":
            yield impl(item, "Serialize", sent_members(one))
        else:
            yield impl(item, READ, read_members(item, one), LT_DE)
    reading = [LT_DE, *item.bounds(READ)]
    if item.absent:
        yield impl(item, "Absent", writer.absent(), *item.lifetimes, *item.parameters)
    if "Serialize" in item.derives and item.cycle:
        yield impl(item, "Steps", writer.step_members())
        yield impl(item, "Nests", writer.sent_members())
        yield impl(item, "Told", writer.told_members())
        yield impl(item, "Tells", writer.tells_members())
        yield impl(item, "SendNested", writer.sending())
    if "Serialize" in item.derives:
        yield impl(item, "Serialize", writer.serialize(), *item.lifetimes, *item.bounds("Serialize"))
    if item.spread:
        yield from writer.entries_senders()
        yield impl(item, "SendEntries", writer.entries(), *item.lifetimes)
    if "Deserialize" in item.derives:
        if item.cycle:
            if writer.alone:
                yield impl(item, "ReadsLevel<'de>", writer.level_members(), LT_DE)
            yield impl(item, "ReadsNested<'de>", writer.read_members(), LT_DE)
            yield from writer.reading()
        elif item.variants and "untagged" not in item.serde:
            yield impl(item, writer.variants_trait, writer.variants_impl(), *reading)
        yield impl(item, READ, writer.deserialize(), *reading)
    if item.comes_back() and isinstance(writer, AdjacentWriter) and writer.one_by_one:
        yield writer.backs_trait()
        yield impl(item, f"{writer.back_name()}<'de>", writer.back_members(), LT_DE)
    if item.comes_back():
        yield from writer.trip_functions()
        yield impl(item, TRIP, writer.round_trip(), LT_DE, *item.bounds(TRIP))
    if cbor and item.comes_back_from_cbor():
        yield impl(item, CBOR, writer.cbor_round_trip(), LT_DE, *item.bounds(CBOR, item.optionals(), f"{CBOR} + {NOT_NULL}"))
        if not item.may_be_null():
            not_null = [ghost("refuses_null", writer.not_null())]
            yield impl(item, NOT_NULL, not_null, LT_DE, *item.bounds(READ, item.null_by(), NOT_NULL))


def read(source: str) -> File:
    """What a file holds, as it is declared."""
    reader = Reader(re.sub(r"^\ufeff?(?:#!(?!\s*\[)[^\n]*)?", "", source))
    try:
        return reader.file()
    except RecursionError:
        raise Refused(reader.next.line, "what nests so deeply is not covered: divide it") from None


def check_variants(item: Item) -> Iterator[Refused]:
    """Refuses variants that are not covered as their enum is tagged."""
    if "untagged" in item.serde:
        yield from check_untagged(item)
    elif "tag" in item.serde:
        yield from check_tagged(item)


def settled(file: File, homes: Homes) -> Dict[str, Writer]:
    """The writers of a file's types, once all names and types are known; a Refusals says what is not covered."""
    def keep(refusals: Callable[[Item], Iterable[Refused]]) -> None:
        """Keeps what this refuses of each item."""
        homes.keep(refused for item in file.items for refused in refusals(item))

    keep(take_conversions)
    for refused in check(file, homes.module):
        homes.refuse(refused)
    homes.resolve()
    file.functions.uses = file.uses
    file.functions.derived = {item.name for item in file.items if item.defaults}
    for item in file.items:
        file.functions.variants[item.name] = {v.name: [f.type for f in v.data.fields] for v in item.variants}
    keep(lambda item: name_item(item, file.functions))
    homes.settle()
    homes.keep(settle_calls(homes, file))
    homes.keep(settle_conversions(homes))
    keep(lambda item: check_hidden(item, homes))
    settle_defaults(list(homes.ordered()), homes.items, file)
    keep(lambda item: check_missing(item, homes.items))
    keep(lambda item: check_nested(item, file.items))
    keep(check_variants)
    keep(check_sizes)
    keep(check_rows)
    keep(check_unread)
    keep(lambda item: check_hashed(item, homes))
    keep(check_references)
    keep(lambda item: check_arrays(item, homes))
    covered = [item for item in file.items if item.covered]
    keep(lambda item: check_derives(item, homes.items, file))
    for refused in check_work(covered):
        homes.refuse(refused)
    if not file.items and not file.refused:
        file.refused.append(Refused(1, "no struct or enum here derives Serialize or Deserialize: derive one of them"))
    if file.refused:
        raise Refusals(file.refused)
    name_functions(file.items)
    name_cases(file.items, homes.declared, set(homes.said.values()))
    return {item.name: writer_of(item) for item in file.items}


def brought(words: Set[str], word: str, texts: List[str]) -> bool:
    """Whether an item of code is named in one of the texts."""
    if word not in METHODS:
        return word in words
    return any(re.search(METHODS[word], text) for text in texts)


def uses(file: File, homes: Homes, texts: List[str]) -> List[str]:
    """The lines that bring the words of contracts, and those that bring the items of code."""
    seen = [found for text in texts for found in re.findall(r"λ\s(?:o\s)?\([xz]\s:\s(.*?)\)\.\s", text, re.S)
            + re.findall(r"let\slaw\s:\s\(x\s:\s(.*?)\)\s\(readable\s", text, re.S)
            + re.findall(r"ghost\svariant_\d+:\s\{\s(.*?)→", text, re.S)]
    words, named = words_in(texts), words_in(re.sub(r"(_as_seen)\.\w+", r"\1", text) for text in seen)
    owns = {own.called: own for item in file.items for own in item.owns()}.values()
    ghosts = words_of(words, WORDS) + words_of(named, SEEN)
    ghosts += [f"ghost use Rattle.{path} as {name};" for name, path in ALIASES.items()
               if any(re.search(rf"\b{name}\.", text) for text in texts)]
    ghosts += [f"ghost use {own.home.format('declared')}.{own.declared}.{{{own.declared}}};"
               for own in owns if not own.module() and own.declared in named]
    ghosts += [f"ghost use {own.home.format('declared')}.{own.declared} as {own.module()};" for own in owns if own.module() in named]
    declared = homes.here.format("declared")
    held = dict.fromkeys(found for text in texts for found in re.findall(r"\(λ\s\(q\s:\s(\w+)\)\.", text))
    ghosts += [f"ghost use {declared}.{name}.{{{name}}};" for name in held]
    ghosts += [f"ghost use {declared}.{item.name}.TheVariants as {item.cases};"
               for item in file.items if item.variants and not item.cycle
               and not (item.conversions and not any(names(text, item.cases) for text in texts))]
    nested = [item for item in file.items if item.cycle]
    tried = any(one.fails for item in file.items for one in item.conversions)
    ghosts += words_of(words, {**(NESTED_WORDS if nested else {}), **(TRIED_WORDS if tried else {})})
    ghosts += words_of(words, TOLD_WORDS) if any(map(TOLD.search, texts)) else []
    for item in nested:
        sends = [f"fold-{item.name}", f"fold_out-{item.name}", f"map-{item.name}"] * ("Serialize" in item.derives)
        seen = [in_term(item.name), *sends, f"out-{item.name}"]
        ghosts += [f"ghost use {declared}.{item.name}.{{{', '.join(seen)}}};",
                   f"ghost use {declared}.{item.cycle[0].name}.TheOpen as {item.cases};"]
        if f"{item.cases}_as_view" in words:
            ghosts += [f"ghost use {declared}.{item.cycle[0].name}.TheViews as {item.cases}_as_view;"]
    ghosts += [f"ghost use {module} as {word};" for module, word in homes.said.items()]
    code = [f"use {path}::{{{', '.join(used)}}};" for path, names in USES.items()
            if (used := [name for name in names.split() if brought(words, name, texts)])]
    used = [name for name in NESTED_ITEMS if nested and name in words]
    code += [f"use content_nested::{{{', '.join(used)}}};"] * bool(used)
    code += [f"use {'::'.join(path)}{'' if path[-1] == shown else f' as {shown}'};"
             for shown, path in ((name, homes.path(name)) for name in file.uses if name in homes.used)]
    return [*ghosts, "", *code]


def texts_of(item: Item, writer: Writer, cbor: bool) -> List[str]:
    """The declaration and the impls of an item."""
    try:
        return [item.declared(), "", *impls(item, writer, cbor)]
    except RecursionError:
        raise Refusals([Refused(item.line, "what it holds has too many or too long names: divide it", item.name)]) from None


def module(source: str, name: str, crate: str, place: str, cbor: bool = False,
           notes: Optional[List[Tuple[int, str]]] = None) -> str:
    """The module for a file of declarations, not yet laid out; into the notes goes what was left out.
    A Refusals says what is not covered."""
    try:
        file = read(source)
    except Refused as refused:
        raise Refusals([refused]) from None
    declared, file.notes = file.notes, []
    homes = Homes(crate, place, file, laws_of)
    try:
        writers = settled(file, homes)
    finally:
        if notes is not None:
            notes += sorted([*declared, *file.not_copied()])
    if notes is not None:
        notes += [*file.notes, *homes.unused(), *elsewhere(file, cbor)] + [
            (item.line, f"no RoundTrip is written for `{item.name}`: {item.why_astray()}")
            for item in file.items if item.derives_all() and not item.comes_back()]
        notes.sort()
    texts = [text for item in file.items for text in texts_of(item, writers[item.name], cbor)]
    cases = {item.name: item.cases for item in file.items}
    text = re.sub(CASES.format(r"(\w+)"), lambda found: cases[found[1]], "\n".join(texts))
    body = with_names(text, [item.name for item in file.items])
    docs = file.docs or ["//! Types that are sent and read."]
    docs += ["//!", f"//! Written by `tools/derive` from `{doc_line(name)}`: change that file, and write this one anew."]
    return "\n".join([*docs, "", *uses(file, homes, [body]), "", body])
