"""What is written of what a struct or a variant holds of whose values some lead back to its type."""
from typing import Dict, List

from .declarations import Field, Item
from .holder import Holder
from .literals import name_method, name_term
from .tagged import TaggedHolder
from .text import bare, function, ghost, together
from .types import READ, Type

BELOW = "Box<Below>"  # the levels that are left, as what reads the values inside has them


def path_of(letter: str, place: int, count: int) -> str:
    """One of so many, out of all together."""
    return letter if count == 1 else f"{letter}{'.1' * place}{'.0' * (place + 1 < count)}"


def nested(t: Type, x: str) -> str:
    """What a value in a fold is sent by."""
    if t.nested:
        return x
    if t.name == "Box":
        return nested(t.arguments[0], f"{x}.value")
    each = f"(λ y. {nested(t.arguments[-1], 'y')})"
    return {"Option": f"(option_nested {each} {x})", "Vec": f"(seq_nested {each} {x}.items)",
            "BTreeMap": f"(map_nested {each} {x}.entries)"}[t.name]


def is_empty(t: Type, x: str) -> str:
    """Whether a value in a fold is left out."""
    return {"Option": f"(is_none {x})", "Vec": f"(has_none {x}.items)", "BTreeMap": f"(has_none {x}.entries)"}[t.name]


class Levels:
    """What the types of a cycle read on one level, by what the next reads of them."""

    def __init__(self, cycle: List[Item]):
        self.places = {item.name: place for place, item in enumerate(cycle)}

    def path(self, letter: str, t: Type) -> str:
        """What stands for a type of the cycle."""
        return path_of(letter, self.places[t.name], len(self.places))

    def refusal(self, t: Type) -> str:
        """What is refused of a value inside."""
        if t.nested:
            return self.path("r", t)
        if not t.leads_back():
            return f"({t.member(READ, 'refusal')})"
        inside = self.refusal(t.arguments[-1])
        return {"Box": inside, "Option": f"(λ s. held_refusal {inside} (held_by s))",
                "Vec": f"(λ s. refusal_then (seq_at s) (seq_refusal {inside}))",
                "BTreeMap": f"(λ s. refusal_then (map_at s) (map_refusal {self.refusal(t.arguments[0])} {inside}))"}[t.name]

    def gives(self, t: Type) -> str:
        """What a value inside may be."""
        if t.nested:
            return self.path("g", t)
        if not t.leads_back():
            return f"({t.member(READ, 'gives')})"
        inside = self.gives(t.arguments[-1])
        if t.name == "BTreeMap":
            key = t.arguments[0]
            return (f"(λ s v. IsTaken (map_at s) (λ left. MapGives {self.gives(key)} {inside} ({key.member('Ord', 'cmp')}) left"
                    " [] v.entries))")
        return {"Box": f"(λ s b. {inside} s b.value)", "Option": f"(λ s v. HeldGives {inside} (held_by s) v)",
                "Vec": f"(λ s v. IsTaken (seq_at s) (λ left. SeqGives {inside} left v.items))"}[t.name]


class NestedHolder(Holder):
    """What a struct or a variant holds of whose values some lead back to its type."""

    levels: Levels
    big = False
    sent_as, read_as = "fold", "level"  # whom the words of contracts are for

    @classmethod
    def of(cls, levels: Levels, *given: object) -> "NestedHolder":
        """What holds what this says, in a type of the cycle."""
        made = cls(*given)
        made.levels, made.big = levels, False
        return made

    def inner(self, place: int) -> str:
        """The type of a value, as a parameter of what sends it."""
        f = self.fields[place]
        return f"Inner{place + 1}" if f.type.leads_back() else f.type.rust()

    def given_types(self) -> List[str]:
        """These parameters."""
        return [f"{self.inner(place)}: SendNested{' + SkipNested' * f.skips}"
                for place, f in enumerate(self.fields) if f.type.leads_back()]

    def skipped(self, place: int, value: str) -> str:
        """Whether a value is left out."""
        f = self.fields[place]
        if not f.type.leads_back():
            return f.skipped(value)
        if self.sent_as == "fold":
            return is_empty(f.type, value)
        return f"({self.known(place)}.is_empty ({self.known(place)}.layer {value}))"

    def sent(self, f: Field, value: str) -> str:
        """A value as a row has it; one that leads back has rows of its own."""
        row = super().sent(f, value)
        return row.replace("Send", "SendNested", 1) if f.type.leads_back() else row

    def known(self, place: int) -> str:
        """What tells what a value is sent by, in contracts that don't look into it."""
        return self.inner(place) if self.sent_as == "parameter" else f"⟦<{self.fields[place].type.rust()} as Nests>⟧"

    def unless(self, place: int, value: str) -> Dict[str, str]:
        return {"skipped": self.skipped(place, value)}

    def length(self, values: List[str], more: int = 0) -> str:
        term = str(self.sent_count() + more)
        for place, (f, value) in enumerate(zip(self.fields, values)):
            term = f"(fields_less {self.skipped(place, value)} {term})" if f.skips else term
        return term

    def scripts(self, values: List[str]) -> List[str]:
        scripts = super().scripts(values)
        for place, (f, value) in enumerate(zip(self.fields, values)):
            if f.type.leads_back():
                of = self.known(place)
                term = nested(f.type, value) if self.sent_as == "fold" else f"({of}.nested ({of}.layer {value}))"
                scripts[place] = f"{term}.script"
        return scripts

    def laws(self, values: List[str]) -> List[str]:
        return [f"({nested(f.type, value)}.lawful readable)" if f.type.leads_back() else law
                for f, value, law in zip(self.fields, values, super().laws(values))]

    def member(self, f: Field, member: str) -> str:
        """What a value that leads back refuses or gives."""
        if self.read_as == "level":
            return self.levels.refusal(f.type) if member == "refusal" else self.levels.gives(f.type)
        return f"(⟦<{BELOW} as ReadsWithin<'de, {f.type.rust()}>>⟧.{member} {self.read_as})"

    def refusals(self) -> List[str]:
        return [self.member(f, "refusal") if f.type.leads_back() else refusal
                for f, refusal in zip(self.fields, super().refusals())]

    def given(self, values: List[str]) -> List[str]:
        return [f"{self.member(f, 'gives')} {value}" if f.type.leads_back() else given
                for f, value, given in zip(self.fields, values, super().given(values))]

    def row_types(self) -> List[str]:
        """The declarations of what its values are read as."""
        rows = []
        for place, f in enumerate(self.fields if self.many else ()):
            arguments = [self.list, str(self.index(f))] if self.data.named else [str(self.count), str(place)]
            rows.append(f"type {self.row_type(place)} = {self.sort_of(f)}<{', '.join(arguments)}, {f.type.rust()},"
                        f" {self.row_type(place + 1)}>;\n")
        return ["".join(rows)]

    def sort_of(self, f: Field) -> str:
        """What a value is read as."""
        start = "Nested" if f.type.leads_back() else "Read"
        return f"{start}Field{'Or' * bool(f.missing)}" if self.data.named else f"{start}Part"

    def apart(self, places: List[str], start: int) -> List[str]:
        return [f"let {self.sort_of(self.fields[at])}({place}, {'_' if at + 1 == self.count else 'row'}{', _' * self.data.named})"
                " = row;" for at, place in enumerate(places)]

    def taken_within(self, source: str, places: List[str]) -> List[str]:
        """The statements that read its values with the levels that are left."""
        trait, method = ("FieldsWithin", "read_fields") if self.data.named else ("PartsWithin", "read_parts")
        return [f"let row: {self.row_type(0)} = {trait}::{method}(levels, alloc, {source})?;", *self.apart(places, 0)]


class NestedTaggedHolder(NestedHolder, TaggedHolder):
    """What stands beside the tag of a variant, of which some leads back."""


class PlainHolder(Holder):
    """What a variant holds of which nothing leads back: its values are read one by one."""

    big = made_from = False


class PlainTaggedHolder(PlainHolder, TaggedHolder):
    """The same beside a tag."""


def struct_within(holder: NestedHolder, whole: str, wire: str, values: List[str], bounds: str) -> str:
    """The impl that reads the fields of a struct, which contracts see as these values of `z`, by a function of their own."""
    holder.read_as = "l"
    names = [f"x{i + 1}" for i in range(holder.count)]
    ghosts = [ghost("name", bare(name_term(wire))), ghost("refusal", f"λ l. {bare(holder.refusal_row())}"),
              ghost("gives", f"λ l z. {holder.gives_row(values)}")]
    holder.read_as = "level"
    read = function(f"fn read_fields<'n: 'de>(levels: &{BELOW}, alloc: Global, fields: FieldsByName<'de, 'n>)"
                    f" -> Result<{whole}>", f"let {together(names)} = {holder.reader}(levels, alloc, fields)?;",
                    f"Ok({holder.data.made(whole, names)})")
    return (f"impl<'de, Below> StructWithin<'de, {BELOW}> for {whole}\n{bounds}{{\n"
            + "\n\n".join([*ghosts, name_method("name", wire), read]) + "\n}\n")
