"""The impls of a struct."""
from typing import Callable, Iterator, List

from .declarations import Data, Item
from .entries import entries_inside, row_entries
from .functions import Functions, said_of
from .holder import FLATTENED, KEYED_ENTRY, UNLESS_ENTRY, Holder, plain
from .text import ABSENT, DESERIALIZE, KNOWN, REFUSED_NULL, SERIALIZE, all_hold, facts, function, ghost
from .types import READ, TRIP, in_term


class FlattenedHolder(Holder):
    """What a struct with flattened fields holds: it is sent as a map and read from one."""

    by_key = FLATTENED
    by_keyed = KEYED_ENTRY
    unless_words = UNLESS_ENTRY
    as_named = "entries_named"
    row_named = "SendEntry"
    read_by = "ReadFields"

    def __init__(self, item: Item):
        super().__init__("Struct", [], item.data.flat(), item.owner)
        self.word, self.camel, self.head, self.call = "flattened", "Flattened", "", "Call::Map(None)"

    def script(self, values: List[str]) -> str:
        return "flattened_script" + self.row("script", self.scripts(values), values=values)

    def opening(self, values: List[str]) -> str:
        return self.call

    def read(self, make: Callable[[List[str]], str]) -> List[str]:
        return ["read_flattened(alloc, from)"]

    @staticmethod
    def named_by(member: str) -> List[str]:
        return []

    def back(self, values: List[str], sees: List[str]) -> str:
        return self.back_row(values, sees)

    def kept(self, values: List[str], sees: List[str]) -> str:
        return self.kept_row(values, sees)


def same(data: Data, known: Iterator[str]) -> str:
    """That two values are equal, from what is known of each leaf."""
    return all_hold([same(f.inside, known) if f.inside else next(known) for f in data.fields])


def made_absent(item: Item) -> List[str]:
    """What is read where a field is missing whose type has a Default by hand that is one value."""
    return [ghost("is_absent", f"λ x. {item.absent_value.fact}"),
            function(ABSENT.format(item.itself().rust()), item.absent_value.code[3:-1])]


class StructWriter:
    """The impls of a struct."""

    def __init__(self, item: Item):
        self.item, self.fields, self.whole = item, item.data.leaves(), item.itself()
        self.sends, self.reads = "Serialize" in item.derives, "Deserialize" in item.derives
        self.holder = FlattenedHolder(item) if item.flattens() else Holder("Struct", [item.wire], item.data, item.owner)
        self.holder.of_struct = True
        self.values = [f"p.{in_term(f.name)}" for f in self.fields]
        self.sees = [f"(λ q. q.{in_term(f.name)})" for f in self.fields]

    def functions(self) -> List[str]:
        """Those that the impls call."""
        holder = self.holder
        sent = holder.names_list() + holder.sent_types() * self.sends
        if not self.reads:
            return sent
        read = holder.read_impl(self.making(holder.read_places()), self.whole, [f"z.{in_term(f.name)}" for f in self.fields])
        made = holder.maker(self.whole, self.item.data.made(self.item.name, holder.data.places()), self.item.data.term)
        return sent + holder.row_types() + made + read

    def making(self, places: List[str]) -> str:
        """How the code makes it of what was read."""
        if self.holder.big:
            return f"{self.holder.maker_name()}({', '.join(places)})"
        return self.item.data.made(self.item.name, places)

    def absent(self) -> List[str]:
        """What is read where a field of this type is missing."""
        if self.item.absent_value:
            return made_absent(self.item)
        given = [Functions.initial(f.type) if f.type.opaque else None for f in self.fields]
        facts_known = " × ".join(said_of(by.fact, value) if by else f"{f.type.member('Absent', 'is_absent')} {value}"
                                 for f, value, by in zip(self.fields, self.values, given))
        made = self.item.data.made(self.item.name, [plain(by.code) if by else "Absent::absent(alloc)" for by in given])
        return [ghost("is_absent", f"λ p. {facts_known or '⊤'}"), function(ABSENT.format(self.whole.rust()), made)]

    def serialize(self) -> List[str]:
        return [ghost("script", f"λ p. {self.holder.script(self.values)}"),
                ghost("lawful", self.lawful()),
                function(SERIALIZE, *self.holder.send([f"&self.{f.name}" for f in self.fields]))]

    def lawful(self) -> str:
        """The law that each value's script is lawful."""
        return f"λ p readable. {self.holder.lawful(self.values)}"

    def entries_senders(self) -> List[str]:
        """The functions that `entries` needs."""
        return []

    def entries(self) -> List[str]:
        """What it sends where it is flattened."""
        if self.item.data.named:
            return row_entries(self.holder, self.values, [f"&self.{f.name}" for f in self.fields]).members("p")
        return entries_inside(self.fields[0].type, self.values[0], f"&self.{self.fields[0].name}").members("p")

    def deserialize(self) -> List[str]:
        return [ghost("refusal", self.holder.refusal()),
                ghost("gives", f"λ s p. {self.holder.gives(self.values) + ' s' if self.fields else '⊤'}"),
                function(DESERIALIZE.format(self.whole.rust()), *self.holder.read(self.making))]

    def round_trip(self) -> List[str]:
        asked = self.holder.data.asked()
        return [ghost("exists", f"λ p. {self.holder.exists(self.values)}")] * bool(asked) + [
            function(KNOWN, *[f"self.{f.name}.known();" for f in asked]),
            ghost("comes_back", self.back()),
            ghost("keeps", self.keeps())]

    def trip_functions(self) -> List[str]:
        """Those that the impl of RoundTrip calls."""
        return []

    def back(self) -> str:
        """The law that values come back."""
        holder = self.holder
        laws = holder.back(self.values, self.sees)
        if not self.fields:
            back = (f"leaf_such (tree.structure (static_name {holder.names}) tree.no_data) refl\n"
                    "(record { free = refl; only = λ q h. refl })")
        elif not holder.many:
            back = f"{holder.word}_back{laws} (λ q. q.0) f (λ q h. h)"
        else:
            back = f"{holder.word}_back{laws}\nf (λ q h. {same(self.item.data, iter(facts(holder.count, 'h')))})"
        return f"record {{\nof_value = λ p real f. {back};\n}}"

    def keeps(self) -> str:
        """The law that what is given without coercion is given with it."""
        holder = self.holder
        if not self.fields:
            return "heedless_keeps _ _"
        if not holder.many:
            return f"seen_keeps (λ q. q.0) ({holder.word}_keeps {holder.names}{holder.keeps(self.sees)})"
        return f"{holder.word}_keeps{holder.head}{holder.keeps(self.sees)}"

    def not_null(self) -> str:
        """The law that it isn't read of null."""
        if self.item.null_by():
            return f"record {{ of_null = λ b e. {self.item.alone().not_null()}.of_null b e }}"
        return REFUSED_NULL

    def cbor_round_trip(self) -> List[str]:
        return [ghost("kept", self.kept())]

    def kept(self) -> str:
        """The law that values come back from CBOR."""
        holder = self.holder
        laws = f"{holder.word}_kept{holder.kept(self.values, self.sees)}"
        passes = same(self.item.data, iter(facts(holder.count, 'h'))) if holder.many else "h"
        see = "" if holder.many else " (λ q. q.0)"
        return f"record {{\nof_value = λ p real. {laws}{see}\n(λ q h. {passes});\n}}"


class TransparentWriter(StructWriter):
    """The impls of a struct that is sent as one field is, and read as one is."""

    def __init__(self, item: Item):
        super().__init__(item)
        self.field, self.read = item.field_sent(), item.field_read()
        at = self.fields.index(self.field)
        self.type, self.value, self.see = self.field.type, self.values[at], self.sees[at]

    def functions(self) -> List[str]:
        return []

    def serialize(self) -> List[str]:
        value, sending = f"self.{self.field.name}", self.field.sending
        send = f"{sending.code}(&{value}, alloc, serializer)" if sending else f"{value}.serialize(alloc, serializer)"
        return [ghost("script", f"λ p. {self.field.script(self.value)}"),
                ghost("lawful", self.lawful()),
                function(SERIALIZE, send)]

    def entries(self) -> List[str]:
        return entries_inside(self.type, self.value, f"&self.{self.field.name}").members("p")

    def lawful(self) -> str:
        return f"λ p readable. {self.field.lawful(self.value)}"

    def deserialize(self) -> List[str]:
        places, at, reading = self.holder.places, self.fields.index(self.read), self.read.reading
        refusal, gives = (getattr(reading, word) if reading else self.read.type.member(READ, word) for word in ("refusal", "gives"))
        given = [f"{gives} s {self.values[at]}"]
        given = [f"({said_of(f.missing, value)})" for f, value in zip(self.fields, self.values) if not f.read] + given
        read = f"let {places[at]} = {reading.code if reading else 'Deserialize::deserialize'}(alloc, from)?;"
        return [ghost("refusal", refusal),
                ghost("gives", f"λ s p. {' × '.join(given)}"),
                function(DESERIALIZE.format(self.whole.rust()), read, *self.holder.unread_made(self.holder.unread()),
                         f"Ok({self.item.data.made(self.item.name, places)})")]

    def round_trip(self) -> List[str]:
        exists = [ghost("exists", f"λ p. {self.type.member(TRIP, 'exists')} {self.value}")] * (not self.type.plain)
        return exists + [function(KNOWN, *[f"self.{self.field.name}.known();"] * (not self.type.plain)),
                         ghost("comes_back", self.back()),
                         ghost("keeps", self.keeps())]

    def back(self) -> str:
        return f"seen_back {self.see} {self.type.typed_back()}"

    def keeps(self) -> str:
        return f"seen_keeps {self.see} {self.type.typed_keeps()}"

    def not_null(self) -> str:
        return self.type.not_null()

    def kept(self) -> str:
        return f"seen_kept {self.see} {self.type.typed_kept()}"
