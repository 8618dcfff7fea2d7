"""What is written of a type that is flattened and not inlined: the entries of a map that it sends."""
from copy import copy
from typing import List, NamedTuple

from .holder import FLATTENED, UNLESS_ENTRY, Holder, row_of
from .literals import name_term
from .text import function, ghost
from .types import Type, nest

FOLLOWING = "Following: serde_content::derive_support::SendRow"
SENT = "serde_content::ser::Sent"
AROUND = "alloc: Global, serializer: &mut S, error: &mut Error"
SEND_ENTRIES = f"fn send_entries<{FOLLOWING}, S: Serializer>(&self, rest: &Following, {AROUND}) -> {SENT}"
SEND = "serde_content::derive_support::SendRow::send({}, alloc, serializer, error)"


class Entries(NamedTuple):
    """What a struct or a variant sends before the rest of a map: the script, that it is entries where the rest is, and the
    statements."""

    script: str
    fit: str
    send: List[str]

    def members(self, value: str) -> List[str]:
        """The members of the impl of a struct, which contracts call so."""
        return [ghost("entries", f"λ {value} rest. {self.script}"), ghost("fit", f"λ {value} rest readable fit. {self.fit}"),
                function(SEND_ENTRIES, *self.send)]


NO_ENTRIES = Entries("rest", "fit", [SEND.format("rest")])


def entries_inside(of: Type, value: str, place: str) -> Entries:
    """Those of a value, which contracts and code call so."""
    return Entries(f"{of.member('SendEntries', 'entries')} {value} rest", f"{of.fit(value)} rest readable fit",
                   [f"SendEntries::send_entries({place}, rest, alloc, serializer, error)"])


def row_entries(holder: Holder, values: List[str], places: List[str]) -> Entries:
    """Those of fields by name, which contracts and code call so, after that of a tag, where there is one."""
    row = copy(holder)
    row.by_key = row.by_keyed = FLATTENED._replace(script=(FLATTENED.script[0], "rest"), lawful=(FLATTENED.lawful[0], "fit"))
    row.unless_words, row.row_named = UNLESS_ENTRY, "SendEntry"
    scripts = row.parts("script", row.scripts(values), values=values)
    laws = row.parts("lawful", row.laws(values), values=values)
    rows = row_of([f"SendTagEntry{row.tag_row}"] * bool(row.tag_row) + row.sent_row(places, 0), "SendRest(rest)")
    return entries(holder, list(filter(None, scripts)), list(filter(None, laws)), row.lending(places) + rows)


def entries(holder: Holder, scripts: List[str], laws: List[str], rows: List[str]) -> Entries:
    """Those of these heads, after that of a tag, where there is one."""
    tagged = bool(holder.tag_row)
    scripts = [f"tag_first {name_term(holder.tag)} {name_term(holder.variant)}"] * tagged + scripts
    laws = ["flattened_fits (leaf_lawful refl)"] * tagged + laws
    return Entries(nest(scripts, "rest"), nest(laws, "fit"), [*rows, SEND.format("&row")])


def entry_of(key: str, announced: str, of: Type, value: str, place: str) -> Entries:
    """That of this key and this value."""
    return Entries(nest([f"flattened_first {name_term(key)} ({of.member('Serialize', 'script')} {value})"], "rest"),
                   nest([f"flattened_fits ({of.lawful(value)})"], "fit"),
                   [*row_of([f"SendEntry({announced}, {place}, row)"], "SendRest(rest)"), SEND.format("&row")])


def entry_around(key: str, announced: str, inside: Holder, values: List[str], places: List[str], around: Holder) -> Entries:
    """That of this key, whose value is a struct or a tuple of these values, after that of a tag, where there is one."""
    rows = inside.lending(places) + row_of(inside.sent_row(places, 0), inside.sent_last(places, 0))
    rows.append(f"let row = SendOpen({inside.opening(places)}, row);")
    rows.append(f"let row = SendEntryInside({announced}, row, SendRest(rest));")
    rows += [f"let row = SendTagEntry{around.tag_row};"] * bool(around.tag_row)
    return entries(around, [f"flattened_first {name_term(key)} ({inside.script(values)})"],
                   [f"flattened_fits ({inside.lawful(values)})"], rows)
