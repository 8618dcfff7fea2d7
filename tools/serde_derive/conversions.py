"""Types that are read or sent as others, to which conversions of the user's lead: `from`, `try_from` and `into`."""
from typing import Iterator, List, NamedTuple, Optional

from .attributes import CONVERSIONS, SERDE
from .calls import Called, holds_memory, said
from .cases import pascal
from .declarations import Conversion, Item, NotRust, Refused
from .homes import Homes
from .parser import Parser
from .text import DESERIALIZE, SERIALIZE, function, ghost
from .types import NUMBERS, READ, SIGNED, Type, snake

PRIVATE = ("", "pub(self) ")  # what stands before what no other module can name
MOST_LISTED = 8  # a message names no more fields
BY_FUNCTION = "convert it in a function, and name that by `deserialize_with` on the fields that hold it"
# the types of texts, and what contracts call the bytes of one
TEXTS = {"String": "string_bytes", "BoxedStr": "boxed_str_bytes", "PathBuf": "path_buf_bytes"}
SENDING = "#[tactic(auto, using(content_ser::proofs::Sending::sending))]\n"
EVENTS, SCRIPTS = (Called("", f"Rattle.content_ser.specs.{module}", "") for module in ("Calls.Event", "Scripts.Standard"))


class Request(NamedTuple):
    """How a type is read that contracts know the value of: the outcome, that value as {x} of the type, and what contracts see
    it as."""

    outcome: str
    given: str
    seen: str


def request_of(t: Type) -> Optional[Request]:
    """How a type is read, where contracts know which value that gives."""
    if t.name in NUMBERS:
        kind = t.name.replace("size", "64")
        return Request(f"number_from kind.{kind} s", "{x}" if t.name in SIGNED else "(pos {x})", "ℤ")
    return Request(f"{t.name}_from s.origin", "{x}", t.seen()) if t.name in ("bool", "char") else None


def take_conversions(item: Item) -> Iterator[Refused]:
    """Takes the conversions of an item, which then derives no more what they stand for, and tells which are refused. Where
    it derives nothing more of Serde's, Serde reads no attributes of what it holds."""
    keys = [key for key, trait in CONVERSIONS.items() if key in item.serde and trait in item.derives and not item.transparent()]
    reason = why_not(item, keys)
    if reason:
        yield Refused(item.line, reason, item.name)
    for key in keys if not reason else ():
        try:
            item.conversions.append(Conversion(key, CONVERSIONS[key], type_of(item.serde[key])))
            item.derives.remove(CONVERSIONS[key])
        except NotRust:
            yield NotRust(item.line, f"serde's `{key}`: expected a type, found `{item.serde[key]}`", item.name)
        except Refused as refused:
            yield Refused(item.line, f"serde's `{key}`: {refused.reason}", item.name)
    if item.conversions and not SERDE & set(item.derives):
        for one in [item, *item.variants, *item.fields()]:
            one.serde.clear()


def why_not(item: Item, keys: List[str]) -> str:
    """Why conversions by these attributes are not covered for an item, or nothing."""
    if {"from", "try_from"} <= set(keys):
        return "such attributes don't go together: `from` and `try_from`: delete one of them"
    if keys and (item.parameters or item.lifetimes):
        return f"serde's `{keys[0]}` is not covered on a type with parameters or lifetimes: write the impls by hand"
    return ""


def type_of(text: str) -> Type:
    """The type that this text is; a NotRust says that it is none, or more."""
    parser = Parser(text)
    found = parser.type()
    if parser.next.sort != "end":
        raise NotRust(parser.next.line, "more than a type")
    return found


def definitions(homes: Homes) -> Called:
    """The module of definitions that the contracts of a file's conversions name."""
    return Called("", f"Rattle.{homes.crate}.specs.{'.'.join(map(pascal, homes.module))}", "")


def settle_conversions(homes: Homes) -> Iterator[Refused]:
    """Settles which impls the conversions of a file's items call, with notes of their contracts, and tells what is refused."""
    for item in homes.file.items:
        for one in item.conversions if item.covered else ():
            if one.type.borrows():
                yield Refused(item.line, f"serde's `{one.key}` is not covered with a type that borrows: name one that holds the"
                              " value itself, as String for &str", item.name)
            elif one.fails and not request_of(one.type):
                yield Refused(item.line, "serde's `try_from` is covered with a bool, a char or a whole number, of which contracts"
                              f" know which one is read, not with `{one.type.written()}`: {BY_FUNCTION}", item.name)
            elif one.key == "into" and one.type.name not in TEXTS and may_hold_memory(one.type, homes):
                yield Refused(item.line, "serde's `into` is covered with a text, or a type that holds no memory, of which contracts"
                              f" know which one is sent, not with `{one.type.written()}`: write the impl of Serialize by hand", item.name)
            else:
                settle = settle_sent if one.key == "into" else settle_read
                note = settle(item, one, homes)
                homes.file.notes.append((item.line, f"called: {note}"))


def check_hidden(item: Item, homes: Homes) -> Iterator[Refused]:
    """Refuses an item that no other module can convert, as what is private is only named and seen in this one."""
    types = [own for one in item.conversions for own in one.type.owns()] if item.covered else []
    parts = [item] * bool(item.conversions and item.covered) + [homes.items[own.name] for own in types if own.name in homes.items]
    names = [part.name for part in parts if part.visible in PRIVATE]
    makes = parts and not item.defaults and any(one.trait == "Deserialize" for one in item.conversions)
    fields = [f.name for f in item.data.fields if makes and f.visible in PRIVATE]
    whys = [f"name {listed(names)}"] * bool(names)
    whys += [f"make `{item.name}`, as it doesn't see its field{'s' * (len(fields) > 1)} {listed(fields)}"] * bool(fields)
    for why, private in zip(whys, filter(None, (names, fields))):
        before = "each of them" if len(private) > 1 else "that"
        yield Refused(item.line, f"its conversions stand in another module, which can't {why}: write `pub(crate)` before {before}",
                      item.name)


def listed(names: List[str]) -> str:
    """These names, as a message has them: the first few of many."""
    shown = ", ".join(f"`{name}`" for name in names[:MOST_LISTED])
    return shown + " .." * (len(names) > MOST_LISTED)


def settle_read(item: Item, one: Conversion, homes: Homes) -> str:
    """Settles what reads an item that is converted from this type, and notes what is called."""
    whole = one.type.rust()
    converts = f"`impl {'Try' * one.fails}From<{whole}> for {item.name}`"
    if not one.fails:
        return f"{converts}, of whose value contracts know what its `from_gives` says"
    word = f"{snake(item.name)}_refusal"
    one.said = said(word, definitions(homes), homes)
    request = request_of(one.type)
    refused = f"{word} {request.given.format(x='x')}"
    return (f"{converts}, which needs `ghost try_from_gives = {{ λ x r. MatchResult r (λ y. {refused} ≡ None) (λ e. IsSomeAnd"
            f" (⟦<E as Display>⟧.output e) (λ t. {refused} ≡ Some t)) }}`, where `E` is its `Error`, by the definition `{word}` of"
            f" `{definitions(homes).module}`, of the type `{request.seen} → Option (List ℕ)`")


def may_hold_memory(t: Type, homes: Homes) -> bool:
    """Whether a value of a type can hold memory; one of another file may."""
    return holds_memory(t, homes.items) or any(own.name not in homes.items for own in t.owns())


def settle_sent(item: Item, one: Conversion, homes: Homes) -> str:
    """Settles what sends an item that is converted into this type, and notes what is called: a text is made by a function that
    takes an allocator."""
    whole, bytes_of = one.type.rust(), TEXTS.get(one.type.name)
    word, module = f"{snake(item.name)}_into", definitions(homes)
    one.said = said(word, module, homes)
    if bytes_of:
        one.code, seen = "self.to_sent(alloc)?", "List ℕ"
        one.script = f"{said('only', SCRIPTS, homes)} ({said('text', EVENTS, homes)} {{x}})"
        needs = (f"`{item.name}::to_sent`, which needs the contract `pub fn to_sent(&self, alloc: Global) -> Result<{whole}, AllocError>"
                 f" ensures {{ IfOk result (λ y. {bytes_of} y ≡ {word} self.now) }}`")
    else:
        copied, seen = "Copy" in item.derives, one.type.seen()
        one.code = f"From::from({'*' * copied}self)"
        needs = (f"`impl From<{'' if copied else '&'}{item.name}> for {whole}`, which needs `ghost from_gives = {{ λ x y. y ≡"
                 f" {word} {'x' if copied else 'x.now'} }}`")
    return f"{needs}, by the definition `{word}` of `{module.module}`, of the type `{item.name} → {seen}`"


def sent_members(one: Conversion) -> List[str]:
    """The members of its impl of Serialize, which sends what it is converted into."""
    value = f"({one.said} p)"
    script = one.script.format(x=value) if one.script else f"{one.type.member('Serialize', 'script')} {value}"
    return [ghost("script", f"λ p. {script}"),
            ghost("lawful", f"λ p readable. {'leaf_lawful refl' if one.script else one.type.lawful(value)}"),
            SENDING * bool(one.script) + function(SERIALIZE, f"let sent: {one.type.rust()} = {one.code};", "sent.serialize(alloc, serializer)")]


def read_members(item: Item, one: Conversion) -> List[str]:
    """The members of its impl of Deserialize, which reads what it is converted from."""
    refusal, gives = (one.type.member(READ, member) for member in ("refusal", "gives"))
    made = [f"let read: {one.type.rust()} = Deserialize::deserialize(alloc, from)?;", "Ok(From::from(read))"]
    given = f"⟦<{item.name} as From<{one.type.rust()}>>⟧.from_gives u p"
    if one.fails:
        request = request_of(one.type)
        refusal = (f"λ s. first_of ({refusal} s) (refusal_then ({request.outcome})\n"
                   f"(λ v. option_map custom ({one.said} v)))")
        given = f"⟦<{item.name} as TryFrom<{one.type.rust()}>>⟧.try_from_gives u (Ok p)"
        made[-1:] = [f"match {item.name}::try_from(read) {{", "Ok(made) => Ok(made),", "Err(refused) => {",
                    "let text = refused.to_string(alloc)?;", "Err(Error::custom(alloc, text.as_str()))", "}", "}"]
    return [ghost("refusal", refusal), ghost("gives", f"λ s p. (u : _) × {gives} s u × {given}"),
            function(DESERIALIZE.format(item.name), *made)]
