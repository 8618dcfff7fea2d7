"""What is written of an untagged enum: its variants are tried in order, by what they hold."""
from typing import Iterator, List

from .declarations import Item, Refused, Variant
from .entries import NO_ENTRIES, Entries, entries_inside, row_entries
from .enums import EnumWriter
from .held import HeldWriter
from .holder import LONGEST_ROW, Holder, sending
from .text import DESERIALIZE, SERIALIZE, all_hold, arm, codes, elim, facts, function, ghost
from .text import together
from .types import ARRAY, READ, nest
from .words import CHOICES, PLACES


def check_untagged(item: Item) -> Iterator[Refused]:
    """Refuses variants that are not covered without a tag."""
    for v in item.variants:
        where, count = f"{item.name}.{v.name}", len(v.data.fields)
        if v.aliases() or "other" in v.serde:
            yield Refused(v.line, "of an untagged enum no variant has another name: delete what says so", where)
        elif v.skips_a_place():
            yield Refused(v.line, "of an untagged enum no value by place is skipped: give the values names", where)
        elif count > 4 and not v.data.named:
            yield Refused(v.line, "of an untagged enum, only variants with no values, with values by name, and with one to four by"
                          " place, are covered: hold a struct of them", where)


class AlternativeHolder(Holder):
    """What a variant holds: it is read as a value of its own type."""

    big = False

    def maker_name(self) -> str:
        """The struct of many fields by name has a function of the other name."""
        made = super().maker_name()
        return made.replace("make_", "made_", 1) if self.count > LONGEST_ROW else made


class UntaggedWriter(EnumWriter):
    """The impls of an untagged enum, whose variants hold nothing, or values by place or by name."""

    def __init__(self, item: Item):
        super().__init__(item)
        self.variants = [(v, AlternativeHolder("Variant", [item.wire, i, v.wire], v.data, v.owner))
                         for i, v in enumerate(item.variants)]
        # a variant of values by name is sent and read as a struct is
        self.structs = {v.name: HeldWriter(item, v, v.owner, item.wire) for v in item.variants if v.data.named}
        self.holders = {v.name: holder for v, holder in self.variants}
        self.last = f"data did not match any variant of untagged enum {item.name}"

    def functions(self) -> List[str]:
        return [text for v, holder in self.variants
                for text in self.struct(v) * (v.sent or v.read) + self.maker(v, holder) * (self.reads and v.read)
                + self.whole_sender(v, holder) * (self.sends and v.sent)]

    def struct(self, v: Variant) -> List[str]:
        """The struct that a variant of values by name is read as, and how."""
        return self.structs[v.name].texts() if v.data.named else []

    def send_values(self, v: Variant, holder: Holder, values: List[str]) -> List[str]:
        if v.data.named:
            return self.structs[v.name].holder.send(values)
        return sending(f"Call::Tuple({len(values)})", [f"SendElement({x}, row)" for x in values])

    def serialize(self) -> List[str]:
        return [ghost("script", self.each(lambda v, h, x: self.script_of(v, h, x) if v.sent else self.unsent_script(v))),
                ghost("lawful", self.lawful()),
                function(SERIALIZE, *self.match([
                    arm(self.made(v, v.data.places()), [self.send(v, h)]) if v.sent else self.refusing(v)
                    for v, h in self.variants]))]

    def entries_of(self, v: Variant, holder: Holder) -> Entries:
        values, places = self.values(v.data), v.data.places()
        if v.data.named:
            return row_entries(self.structs[v.name].holder, values, places)
        return entries_inside(v.data.fields[0].type, values[0], places[0]) if values else NO_ENTRIES

    def script_of(self, v: Variant, holder: Holder, values: List[str]) -> str:
        if v.data.named:
            return self.structs[v.name].holder.script(values)
        parts = [f"{f.type.member('Serialize', 'script')} {x}" for f, x in zip(v.data.fields, values)]
        if not parts:
            return f"{v.held().member('Serialize', 'script')} tt"
        return parts[0] if len(parts) == 1 else UntaggedWriter.tuple_script(parts)

    @staticmethod
    def tuple_script(parts: List[str]) -> str:
        """The calls of a tuple of these parts."""
        return f"tuple_script {len(parts)}" + nest([f"element_first ({part})" for part in parts], "end_script")

    def lawful(self) -> str:
        return self.each(lambda v, holder, x: f"λ readable. {self.variant_lawful(v, x) if v.sent else 'unsent_lawful _'}")

    def variant_lawful(self, v: Variant, values: List[str]) -> str:
        if v.data.named:
            return self.structs[v.name].holder.lawful(values)
        laws = [f.type.lawful(x) for f, x in zip(v.data.fields, values)] or [v.held().lawful("tt")]
        if len(laws) == 1:
            return laws[0]
        return "tuple_lawful" + nest([f"element_fits ({law})" for law in laws], "end_fits")

    def send(self, v: Variant, holder: Holder) -> str:
        places = v.data.places() or ["()"]
        if len(places) == 1 and not v.data.named:
            return f"{places[0]}.serialize(alloc, serializer)"
        return f"{self.whole_name(v)}({', '.join(['alloc', 'serializer', 'self', *v.data.places()])})"

    def deserialize(self) -> List[str]:
        readable = [v for v, _ in self.readable()]
        refusals = [f"({v.held().member(READ, 'refusal')} (in_buffer s))" for v in readable]
        gives = []
        for place, v in enumerate(readable):
            values = f"({v.data.term(self.values(v.data))})" if v.data.named else together(self.values(v.data))
            before = "".join(f"IsSome {refusal} ×\n" for refusal in refusals[:place])
            gives.append(f"{before}IsTakenAs {refusals[place]} ({v.held().member(READ, 'gives')} (in_buffer s)) {values}")
        given = iter(gives)
        refused = nest([f"or_next {refusal}" for refusal in refusals], f"(Some (custom {codes(self.last)}))")
        return [ghost("refusal", f"λ s.{refused}"),
                ghost("gives", "λ s. " + self.each(lambda v, holder, x: next(given) if v.read else "⊥")),
                function(DESERIALIZE.format(self.whole), *self.tries())]

    def tries(self) -> List[str]:
        """The statements that try the variants: those before the last four one by one, and the
        others in one call, which takes the source."""
        readable = [v for v, _ in self.readable()]
        start = max(len(readable) - len(PLACES), 0) if len(readable) > 1 else 1
        alone, rest = readable[:start], readable[start:]
        lines = [line for v in alone for line in (
            f"if let Some({self.found(v)}) = attempt::<{v.held().rust()}>(alloc, &from)? {{",
            *self.opened(v), f"return {self.given(v)};", "}")]
        if not rest:
            return lines + [f'Err(Error::custom(alloc, "{self.last}"))']
        first, one = CHOICES[len(rest) - 2]
        types = ", ".join(v.held().rust() for v in rest)
        arms = [arm(f"{one}::{place}({self.found(v)})", [*self.opened(v), self.given(v)]) for place, v in zip(PLACES, rest)]
        return lines + [f'match {first}::<{types}>(alloc, from, "{self.last}")? {{', *arms, "}"]

    @staticmethod
    def pattern(v: Variant) -> str:
        """What was read for a variant, as a pattern of its values."""
        if not v.data.fields:
            return "_"
        return v.data.made(v.held().name, v.data.places()) if v.data.named else together(v.data.places())

    @staticmethod
    def is_opened(v: Variant) -> bool:
        """Whether that is taken apart by a statement of its own: the borrow checker moves an array out of no deeper pattern."""
        return (v.data.named or len(v.data.fields) > 1) and any(f.type.name == ARRAY for f in v.data.fields)

    def found(self, v: Variant) -> str:
        return "whole" if self.is_opened(v) else self.pattern(v)

    def opened(self, v: Variant) -> List[str]:
        return [f"let {self.pattern(v)} = whole;"] * self.is_opened(v)

    def given(self, v: Variant) -> str:
        return f"Ok({self.making(v, self.holders[v.name])(v.data.places())})"

    def place(self, v: Variant) -> int:
        return self.item.variants.index(v)

    def free(self, v: Variant, taken: str, source: str) -> str:
        """That the enum doesn't refuse a source where a variant's type doesn't."""
        term = f"first_taken _ _ {taken}"
        for earlier in reversed(self.item.variants[:self.place(v)]):
            term = f"later_taken ({earlier.held().member(READ, 'refusal')} {source})\n({term})"
        return term

    @staticmethod
    def apart(one: Variant, other: Variant) -> str:
        """The laws that tell what two variants take apart: by its class, or else by how many values it has."""
        first, second = one.held(), other.held()
        if first.takes()[0] != second.takes()[0]:
            return f"{first.takes()[1]} {second.takes()[1]}"
        return f"{first.counts()} {second.counts()}"

    def variant_back(self, v: Variant, holder: Holder, values: List[str]) -> str:
        laws = [f.type.typed_back() for f in v.data.fields] or [v.held().back()]
        law = self.held(v, holder, values, laws, "back", "parts_end", " (buffering f)")
        return f"λ real f. such_seen (λ t one. {self.seen_as(v, 'one', 'in_buffer (tree_under f t)', 'f t')})\n{law}"

    def variant_kept(self, v: Variant, holder: Holder, values: List[str]) -> str:
        laws = [f.type.typed_kept() for f in v.data.fields] or [v.held().kept()]
        law = self.held(v, holder, values, laws, "kept", "parts_end_kept", "")
        seen = self.seen_as(v, "(one fits true)", "in_buffer (read_in b (form t))", "(flags_in b) (form t)")
        return f"λ real. such_seen (λ t one fits b. {seen})\n{law}"

    def seen_as(self, v: Variant, one: str, subject: str, source: str) -> str:
        """What is read of a source that is read as one of what a variant holds."""
        free = self.free(v, f"{one}.free", f"({subject})")
        read = elim([self.read_as(v, w, one, source) for w in self.item.variants])
        return f"record {{\nfree = {free};\nonly = {read};\n}}"

    def held(self, v: Variant, holder: Holder, values: List[str], laws: List[str], member: str, end: str, flags: str) -> str:
        """That what a variant holds comes back."""
        asked = v.data.asked()
        real = ["tt" if f not in asked else "real" if len(asked) == 1 else f"real.{asked.index(f)}" for f in v.data.fields]
        if len(laws) == 1:
            return f"({laws[0]}.of_value {together(values)} {real[0] if real else 'tt'}{flags})"
        parts = nest([f"element_{member} {law} {x} {r} {see} {len(laws)} {i}" for i, (law, x, r, see) in enumerate(
            zip(laws, values, real, self.sees(holder)))], f"({end} {len(laws)})")
        return f"(tuple_{member}{parts}\n{flags.lstrip()}{' ' * bool(flags)}(λ y h. h))"

    def read_as(self, sent: Variant, read: Variant, one: str, source: str) -> str:
        """That a variant that was read of a source is equal to the one that was sent, as that is one."""
        values, at, first = self.values(read.data, "y"), self.place(read), self.place(sent)
        pattern = self.case(read, "y") + " λ it. "
        if at < first:
            return pattern + f"taken_by_one {self.apart(read, sent)} refl {source} {self.taken('it', read)}.0 {one}.free"
        if at > first:
            return pattern + f"not_refused _ {one}.free it.{first}"
        if not values:
            return pattern + "refl"
        only = f"{one}.only {together(values)} {self.taken('it', read)}.1"
        return pattern + (only if len(values) == 1 else f"let same = {only} in {all_hold(facts(len(values), 'same'))}")

    def taken(self, given: str, v: Variant) -> str:
        """That the variant's type is taken, out of what is given: each earlier one is refused, and then that."""
        return f"{given}.{self.place(v)}" if self.place(v) else given

    def keeps(self) -> str:
        """That coercion changes nothing: in a buffer numbers are always coerced."""
        return "record { of_origin = λ o people x p. record { free = p.free; given = p.given } }"
