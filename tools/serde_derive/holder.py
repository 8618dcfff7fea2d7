"""What is written of what a struct or a variant holds."""
import re
from copy import copy
from dataclasses import replace
from functools import cached_property
from typing import Callable, Dict, List, NamedTuple, Optional, Tuple

from .cases import pascal
from .declarations import Data, Field
from .functions import said_of
from .literals import ROWS_OPENED, list_impl, list_term, name_call, name_method, name_term
from .stand_ins import reader, sender
from .text import bare, clause, fields_reader, function, ghost, together
from .types import ALIKE, HASHED, LT_DE, LT_SENT, READ, STATIC, TRIP, Type, angled, bounded, in_term, nest, parameter, snake


LONGEST_ROW = 8  # types of longer rows take the checker's memory
LONGEST_HELD = 4  # proofs of reading an enum look into all its variants at once
MOST_TYPES = 8  # the same, of all types that those of a variant's values are made of
LONGEST_SENT = 20  # longer rows of one type are refused by the checker
LONGEST_BORROWED = 8  # the same of values that borrow
LONGEST_GENERIC = 5  # the same of values of which some have parameters


# where what is made of a row at once comes from
MADE_OF = "serde_content::derive_support"


def row_of(values: List[str], last: str = "SendEnd") -> List[str]:
    """The statements that make a row of values, each as a row has it, and of what follows them."""
    return [f"let row = {last};", *(f"let row = {value};" for value in reversed(values))]


def sending(opens: str, values: List[str], last: str = "SendEnd") -> List[str]:
    """The statements that send a compound: what opens it, its values, and what follows them."""
    return [*row_of(values, last), f"let row = SendOpen({opens}, row);", "send_row(alloc, serializer, &row)"]


def plain(made: str) -> str:
    """The code of a value, out of that of a Result of it."""
    return made[3:-1] if made.startswith("Ok(") else f"{made}?" * bool(made)


class Row(NamedTuple):
    """How values are written one after another: what stands for each, and the end."""

    script: Tuple[str, str]
    lawful: Tuple[str, str]
    refusal: Tuple[str, str]
    gives: Tuple[str, str]
    back: Tuple[str, str]
    keeps: Tuple[str, str]
    kept: Tuple[str, str]


BY_PLACE = Row(
    ("tuple_field_first {inner}", "end_script"),
    ("tuple_field_fits {inner}", "tuple_end_fits"),
    ("part_then {count} {place} {inner}", "(end_of_parts {count})"),
    ("PartThen {inner}", "NoPart"),
    ("tuple_field_back {inner} {see} {count} {place}", "(parts_end {count})"),
    ("part_keeps {see} {count} {place} {inner}", "(parts_end_keeps {count})"),
    ("tuple_field_kept {inner} {see} {count} {place}", "(parts_end_kept {count})"))
BY_NAME = Row(
    ("field_first {name} {inner}", "end_script"),
    ("field_fits {inner}", "struct_end_fits"),
    ("row{or_}_then {name} {inner}", "({left} {known})"),
    ("Row{Or}Then {name}{missing} {inner}", "NoOthers"),
    ("named{or_}_back {name}{missing} {inner} {see}", "({end}_back {known})"),
    ("named{or_}_keeps {name}{missing} {see} {inner}", "({end}_keeps {known})"),
    ("named{or_}_kept {name}{missing} {inner} {see}", "({end}_kept {known})"))
FLATTENED = BY_NAME._replace(
    script=("flattened_first {name} {inner}", "end_script"),
    lawful=("flattened_fits {inner}", "flattened_end_fits"),
    back=("flattened_named{or_}_back {name}{missing} {inner} {see}", "(flattened_end_back {known})"),
    kept=("flattened_named{or_}_kept {name}{missing} {inner} {see}", "(flattened_end_kept {known})"))


# what stands for a field that takes the rest; for an Option, whose type is tried
REST = {"refusal": ("rest_then {inner}", ""), "gives": ("RestThen {inner}", "RestTried {inner}")}
# what stands for a field that isn't sent where it is empty, where that differs
UNLESS = {"script": "field_unless {skipped} {name} {inner}",
          "lawful": "field_unless_fits _ _ _ _ {skipped} {inner}",
          "back": "keyed_unless_back {{names = {others}}} {name}{missing} {skipped} {inner}\n{alike} {apart} {see}"}
UNLESS_ENTRY = {"script": "flattened_unless {skipped} {name} {inner}",
                "lawful": "flattened_unless_fits _ _ _ _ {skipped} {inner}",
                "back": "entry_unless_back {{names = {others}}} {name}{missing} {skipped} {inner}\n{alike} {apart} {see}"}
# beside such a field a law says which names are sent
KEYED = BY_NAME._replace(back=("keyed{or_}_back {name}{missing} {inner} {see}", "(keyed_{end}_back {known})"))
KEYED_ENTRY = FLATTENED._replace(back=("entry_named{or_}_back {name}{missing} {inner} {see}", "(entries_end_back {known})"))


def needs_struct(f: Field, of_variant: bool, named: bool) -> bool:
    """Whether a value is read in a struct of it and all beside it, as else proofs get lost: in a variant one of which contracts
    say much, or that is hashed and may be missing; by place in a struct one with paths."""
    if of_variant:
        return f.type.is_deep() or bool(f.missing) and f.type.has(*HASHED)
    return not named and f.type.has("PathBuf")


class Holder:
    """All that is written of what a struct or a variant holds. Its values are given by place, as
    contracts or code name them."""

    of_struct = False  # whether it is of a struct alone, and of no variant
    of_enum = False  # whether it is of a variant of an enum that is tagged externally, or internally with fields of its own
    parted = False  # whether what is around the values is sent by another function
    container: Optional["Holder"] = None  # of the values that are read: what holds the others too
    others: List[Tuple[Field, str]] = []  # those others, each with what code calls its value
    read_by = "ReadStruct"
    by_key = BY_NAME
    by_place = BY_PLACE
    by_keyed = KEYED
    unless_words = UNLESS
    as_named = "keyed_named"
    row_named = "SendField"
    tag = variant = tag_row = ""  # of a variant that is tagged: the names, and the row that sends them

    def __init__(self, sort: str, names: list, data: Data, owner: str):
        self.of_variant, self.all = sort == "Variant", data.fields
        self.hold(data, data.places())
        self.camel = "Struct" if data.named and sort == "Struct" else data.style + sort
        self.word = snake(self.camel)
        self.names = " ".join(str(n) if isinstance(n, int) else name_term(n) for n in names)
        written = [str(n) if isinstance(n, int) else name_call(n) for n in names + [self.sent_count()] * self.many]
        self.call = f"Call::{self.camel}({', '.join(written)})"
        self.wire = names[0] if names else ""
        self.reader, self.owner = f"read_{owner}", pascal(owner)
        self.list = f"FieldsOf{self.owner}"
        named = [f for f in data.fields if not f.rest]
        self.names_known = [f.known for f in named if f.read]
        self.names_sent = self.names_known
        if data.named and any(f.sent and (f.wire != f.known or not f.read) for f in named):
            self.names_sent = [f.wire for f in named if f.sent]
        self.sent_list = self.list if self.names_sent is self.names_known else f"SentOf{self.owner}"
        self.before: List[str] = []
        self.skips = any(f.skips for f in data.fields if f.sent)
        self.head = "" if self.of_variant else " " + self.names
        self.name = "" if self.of_variant else written[0]

    def hold(self, data: Data, places: List[str]) -> None:
        """Takes in the data, whose values code calls so."""
        self.data, self.fields, self.count, self.places = data, data.fields, len(data.fields), places
        self.many = data.several
        self.steps = data.steps() if self.many else 0
        # whether there are references in what a row has references to, and all are sent by a struct of references to them: a row
        # has a lifetime for each in each of its types
        self.borrows = any(f.type.borrows() or f.sending for f in data.fields)
        self.lends = self.borrows and self.many and self.count > LONGEST_BORROWED

    @cached_property
    def reading(self) -> "Holder":
        """The same of the fields alone that are read, in the order in which they are."""
        part = self.part(self.data.to_read())
        if part is not self:
            part.container, part.others = self, self.unread()
        return part

    @property
    def big(self) -> bool:
        """Whether it is read as a struct of its values, and of those beside them that aren't read."""
        whole, read = self.container or self, self.reading
        return self.many and read.count > 0 and (whole.crowded or whole.made_from or read.count > read.room())

    @property
    def made_of(self) -> bool:
        """Whether a trait tells of which struct of values a struct is made, and not a function: where they have parameters proofs
        would look into that."""
        return self.big and self.of_struct and self.generic

    @property
    def made_from(self) -> bool:
        """The same of what a variant is made from: also where its values are many, or one is a hash map."""
        if not (self.of_enum and self.many and self.reading.count) or self.reading.steps:
            return False
        return self.generic or self.crowded or any(f.type.has("HashMap") for f in self.reading.fields)

    @property
    def generic(self) -> bool:
        """Whether some values have parameters."""
        return any(f.type.parameters() for f in self.fields)

    @property
    def crowded(self) -> bool:
        """Whether a variant has more values, read or not, or values of more types, than a proof can take that looks into all. One
        with parameters is none: it is `made_from` a row, or its values are read one by one."""
        if not self.of_variant or any(f.type.parameters() for f in self.all):
            return False
        return len(self.all) > LONGEST_HELD or sum(f.type.weight() for f in self.all) > MOST_TYPES

    def part(self, fields: List[Field]) -> "Holder":
        """The same of some of its fields alone."""
        if fields == self.fields:
            return self
        part = copy(self)
        part.of_struct = part.of_enum = False
        part.hold(replace(self.data, fields=fields), self.those_of(self.places, fields))
        part.__dict__["reading"] = part
        return part

    def those_of(self, each: List[str], fields: List[Field]) -> List[str]:
        """What belongs to some of its fields alone, out of what belongs to each."""
        return [each[self.fields.index(f)] for f in fields]

    def unread(self) -> List[Tuple[Field, str]]:
        """The fields that aren't read, each with what code calls its value."""
        return [(f, place) for f, place in zip(self.fields, self.places) if not f.read]

    def room(self) -> int:
        """How many values are read with no struct of them all."""
        if self.of_variant:
            return self.room_in_variant()
        return 0 if any(needs_struct(f, False, self.data.named) for f in self.fields) else LONGEST_ROW

    def room_in_variant(self) -> int:
        """The same of a variant."""
        return 0 if any(needs_struct(f, True, self.data.named) for f in self.fields) else LONGEST_HELD

    def aliases(self) -> List[str]:
        """The further names of its fields."""
        return [alias for f in self.fields for alias in f.aliases()]

    @property
    def alias_list(self) -> str:
        """The type that stands for them."""
        return f"AliasesOf{self.owner}"

    def sent_count(self) -> int:
        """How many values are sent, where none is left out."""
        return sum(f.sent for f in self.fields)

    def names_list(self) -> List[str]:
        """The types that stand for the names of its fields: one more where fields are sent that aren't read."""
        known = self.data.named and (self.names_known or self.fields)
        lists = [list_impl(self.list, "The names of its fields.", self.names_known)] if known else []
        if self.aliases():
            lists.append(list_impl(self.alias_list, "Further names of its fields.", self.aliases()))
        return lists + [list_impl(self.sent_list, "The names of the fields that are sent.", self.names_sent)] * (
            self.sent_list != self.list)

    def row_type(self, place: int) -> str:
        """What the value at a place and those after it are read as; after the last, the end."""
        if place == self.count and not self.data.named:
            return f"PartsEnd<{self.count}>"
        if place == self.count:
            return f"Others{'Refused' if self.data.closed else 'Skipped'}<{self.list}>"
        return f"{'Field' if self.data.named else 'Part'}{place + 1}Of{self.owner}{angled(*self.data.arguments(place))}"

    def after(self, place: int) -> str:
        """What those before a place have as their rest: where a row would be too long, a struct."""
        return self.run(place) if place % LONGEST_ROW == 0 and place < self.count else self.row_type(place)

    def run(self, start: int) -> str:
        """The struct of the values from a place on."""
        return f"{self.run_name(start)}{angled(*self.run_arguments(start))}"

    def run_arguments(self, start: int) -> List[str]:
        """The parameters of that struct: the first one holds the values that aren't read too."""
        reading = self.reading
        return replace(reading.data, fields=reading.fields[start:] + [f for f, _ in reading.others if not start]).arguments(0)

    def run_name(self, start: int) -> str:
        """The name of the struct of the values from a place on."""
        return f"From{start + 1}Of{self.owner}"

    def starts(self) -> range:
        """The places at which such structs begin, where there are any."""
        return range(0, self.count * self.big, LONGEST_ROW)

    def row_types(self) -> List[str]:
        """The declarations of what its values are read as."""
        if self.reading is not self:
            return self.reading.row_types()
        makers = [reader(self.read_of(f), f) for f in self.fields if f.reading]
        if not self.many or not self.fields:
            return makers
        parts = [f"ReadPart<{self.count}, {place}" if not self.data.named else
                 f"{self.sort(f)}<{', '.join(self.read_by_names(f, place))}" for place, f in enumerate(self.fields)]
        rows = "".join(f"type {self.row_type(place)} = {part}{', ' * (part[-1] != '<')}{self.type_read(f).rust()},"
                       f" {self.after(place + 1)}>;\n" for place, (part, f) in enumerate(zip(parts, self.fields)) if place >= self.steps)
        makers += [self.default_impl(f) for f in self.fields if self.made(f)]
        return (makers + [rows] + [self.run_read(start) for start in self.starts()]
                + [text for place in range(self.steps) for text in [self.one_read(place)] * self.data.named + [self.step(place)]])

    def step_type(self, place: int) -> str:
        """What the values from a place on are read as, where some of them are read one by one."""
        if place == self.steps:
            return self.row_type(place)
        return f"({self.fields[place].type.rust()}, {self.step_type(place + 1)})"

    def step_name(self, place: int) -> str:
        """The function that reads the values from a place on, the first of them by itself."""
        return f"{self.reader}_from_{place + 1}"

    def step(self, place: int) -> str:
        """That function. No type has all values, as nothing is known of its size."""
        named = self.data.named
        source, of, left = (("fields", "FieldsByName", "fields_left") if named else
                            ("parts", "serde_content::de::Seq", "seq_view"))
        rest = f"{self.step_name(place + 1)}(alloc, {source})?"
        if place + 1 == self.steps:
            rest = f"{self.trait()}::read(alloc, {source})?"
        one = f"serde_content::de::next_part(alloc, &mut parts, {self.count}, {place})?"
        if named:
            one = f"{self.one_name(place)}(alloc, &mut fields)?"
        values = [f"z{'.1' * (at - place)}.0" for at in range(self.count)]
        refusal, gives = (self.row(member, inner, start=place) for member, inner in (
            ("refusal", self.refusals()), ("gives", self.given(values))))
        given = angled(LT_DE, f"'n: {LT_DE}", *bounded(self.data.arguments(place), READ))
        return (f"/// Reads the values from place {place + 1} on.\n" + f"{ROWS_OPENED}\n" * named
                + f"fn {self.step_name(place)}{given}(alloc: Global, mut {source}: {of}<'de, 'n>)"
                f" -> Result<{self.step_type(place)}>\n"
                + clause("ensures", f"Reads ({refusal}\n({left} {source}.entry))\n(λ z. {gives}\n({left} {source}.entry)) result")
                + f"{{\nlet value = {one};\nOk((value, {rest}))\n}}\n")

    def one_name(self, place: int) -> str:
        """The function that reads the field at a place alone."""
        return f"{self.reader}_at_{place + 1}"

    def one_read(self, place: int) -> str:
        """That function. It knows the type as a parameter, as proofs find it so whatever the type is."""
        f, name = self.fields[place], name_term(self.fields[place].known)
        read, left = f.type if f.type.parameter else parameter("V"), f"(field_named {name} (fields_left fields.old))"
        given = angled(LT_DE, f"'n: {LT_DE}", *bounded([read.rust()], READ))
        return (f"/// Reads the field `{f.known}`, wherever it is.\nfn {self.one_name(place)}{given}(alloc: Global,"
                f" fields: &mut FieldsByName<'de, 'n>) -> Result<{read.rust()}>\n"
                + clause("ensures value", f"Reads\n(found_refusal (Some (missing_field {name})) ({read.member(READ, 'refusal')})\n{left})\n"
                         f"(FoundGives (λ a. ⊥) ({read.member(READ, 'gives')})\n{left}) result")
                + clause("ensures rest", f"fields_left fields.new ≡\nwithout_field {name} (fields_left fields.old)")
                + f"{{\nserde_content::de::named_field(alloc, fields, {name_call(f.known)})\n}}\n")

    def read_by_names(self, f: Field, place: int) -> List[str]:
        """The arguments of what a field is read as, but its type and what follows it."""
        if f.rest:
            return []
        arguments = [self.list, str(self.index(f))]
        if f.aliases():
            names = "NoName"
            for alias in reversed(f.aliases()):
                names = f"NameAt<{self.alias_list}, {self.aliases().index(alias)}, {names}>"
            arguments.append(f"NameAt<{self.list}, {self.index(f)}, {names}>")
        if self.made(f):
            arguments.append(self.default_of(f))
        elif f.aliases() and f.missing:
            arguments.append("OfType")
        return arguments

    def type_read(self, f: Field) -> Type:
        """The type that is read for a field: where a function of the user's reads it, one that stands for that."""
        return Type(self.read_of(f)) if f.reading else f.read_as()

    def read_of(self, f: Field) -> str:
        """The type that stands for what a function of the user's reads."""
        return f"Read{self.all.index(f) + 1}Of{self.owner}"

    @staticmethod
    def made(f: Field) -> str:
        """The code that makes what is read where a field is missing, where that isn't what its type is read as."""
        return f.made or "Ok(Absent::absent(alloc))" * bool(f.reading and f.missing)

    def sort(self, f: Field) -> str:
        """What a field is read as."""
        if f.rest:
            return "TryRest" if f.tried else "ReadRest"
        if f.aliases():
            return "ReadAliasedElse" if f.missing else "ReadAliased"
        return "ReadFieldElse" if self.made(f) else f"ReadField{'Or' * bool(f.missing)}"

    def default_of(self, f: Field) -> str:
        """The type that stands for what is read where a field is missing."""
        return f"Default{self.all.index(f) + 1}Of{self.owner}"

    def default_impl(self, f: Field) -> str:
        """That type, which makes such a value."""
        owner, read, fact, made = self.default_of(f), self.type_read(f).rust(), f.missing, self.made(f)
        if f.reading:
            fact, made = said_of(fact, "x.0"), f"Ok({read}({plain(made)}))"
        make = function(f"fn make(alloc: Global) -> Result<{read}>", made)
        return (f"/// What is read where the field `{f.known}` is missing.\n#[derive(Drop)]\nstruct {owner};\n\n"
                f"impl DefaultOf<{read}> for {owner} {{\n{ghost('is_default', f'λ x. {fact}')}\n\n{make}\n}}\n")

    def absent(self, f: Field) -> str:
        """What may be given where a field is missing, after a blank."""
        if f.reading and f.missing:
            return f" (⟦<{self.default_of(f)} as DefaultOf<{self.read_of(f)}>>⟧.is_default)"
        return f.absent()

    def test_of(self, f: Field) -> str:
        """The type that stands for the test by which a field is left out."""
        return f"Unless{self.all.index(f) + 1}Of{self.owner}"

    def test_impl(self, f: Field) -> str:
        """That type, which tests a value."""
        owner, t = self.test_of(f), f.type.rust()
        given = angled(*(one for one in f.type.borrows() if one != STATIC))
        return (f"/// When the field `{f.wire}` is left out.\n#[derive(Drop)]\nstruct {owner};\n\n"
                f"impl{given} SkipIf<{t}> for {owner} {{\n{ghost('is_skipped', f'λ x. {f.skipped(chr(120))}')}\n\n"
                f"{function(f'fn is_skipped(value: &{t}) -> bool', f.test.code)}\n}}\n")

    def run_read(self, start: int) -> str:
        """The struct of the values from a place on, how many a row may have and the rest as one, and how it is read.
        Its ghost members are functions, which the checker doesn't look into where nothing asks for it."""
        trait, source = self.trait(), "fields: FieldsByName" if self.data.named else "parts: serde_content::de::Seq"
        end = min(start + LONGEST_ROW, self.count)
        more, whole = end < self.count, self.run(start)
        given = bounded(self.run_arguments(start), READ, bare=(self.container or self).data.bare())
        types, made = [f.type.rust() for f in self.fields[start:end]], self.places[start:end]
        values = [f"z.{place - start}" for place in range(self.count)]
        last = f"({self.run_member(end, 'gives')} {values[end]})" if more else self.end("gives")
        taken = self.taken(trait, source.split(":")[0], made, start)
        beside = self.others if start == 0 else []
        unread = [f"UnreadThen{f.absent()} z.{place}" for place, (f, _) in enumerate(beside, end - start + more)]
        members = "\n\n".join([
            ghost("refusal", f"λ f. ⟦<{self.row_type(start)} as {trait}<'de>>⟧.refusal f"),
            ghost("gives", f"λ z f.{nest(unread + self.parts('gives', self.given(values))[start:end], last)}\nf"),
            function(f"fn read<'n: 'de>(alloc: Global, {source}<'de, 'n>) -> Result<Self>", *taken, *self.unread_made(beside),
                     f"Ok({self.run_name(start)}({', '.join(made + ['row'] * more + [place for _, place in beside])}))")])
        held = ", ".join(types + [self.run(end)] * more + [f.type.rust() for f, _ in beside])
        return (f"/// The values from place {start + 1} on.\n#[derive(Drop)]\nstruct {whole}({held});\n\n"
                f"impl{angled(LT_DE, *given)} {trait}<'de> for {whole} {{\n{members}\n}}\n")

    def trait(self) -> str:
        """What rows of its values are."""
        return "ReadFields" if self.data.named else "ReadParts"

    def run_member(self, start: int, member: str) -> str:
        """A ghost member of the struct of the values from a place on."""
        return f"⟦<{self.run(start)} as {self.trait()}<'de>>⟧.{member}"

    def whole_term(self, values: List[str]) -> str:
        """The struct of all these values, as contracts make it."""
        return self.run_term(self.those_of(values, self.reading.fields), [v for f, v in zip(self.fields, values) if not f.read])

    def run_term(self, read: List[str], unread: List[str], start: int = 0) -> str:
        """The struct of the values from a place on, and of those that aren't read."""
        end = start + LONGEST_ROW
        inside = read[start:end] + ([self.run_term(read, [], end)] if end < len(read) else []) + unread
        return "(record {\n" + "".join(f"{place} = {value};\n" for place, value in enumerate(inside)) + "})"

    def index(self, f: Field) -> int:
        """The index of a field's name among all."""
        return self.names_known.index(f.known)

    def announced(self, f: Field) -> str:
        """The names of which a field's is one as it is sent, and its index."""
        return f"{self.sent_list}, {self.names_sent.index(f.wire)}"

    def taken(self, trait: str, source: str, places: List[str], start: int = 0) -> List[str]:
        """The statements that read the values from a place on as a row, and take it apart into these, and what
        follows them."""
        row = "row" if places else "_"
        return [f"let {row}: {self.row_type(start)} = {trait}::read(alloc, {source})?;", *self.apart(places, start)]

    def apart(self, places: List[str], start: int) -> List[str]:
        """The statements that take a row apart into the values from a place on, and what follows them."""
        lines = []
        for at, value in enumerate(places, start):
            sort = self.sort(self.fields[at]) if self.data.named else "ReadPart"
            rest = "_" if at + 1 == self.count else "row"
            value = f"{self.read_of(self.fields[at])}({value})" if self.fields[at].reading else value
            lines.append(f"let {sort}({value}, {rest}{', _' * (self.data.named and not self.fields[at].rest)}) = row;")
        return lines

    def all_taken(self, trait: str, source: str) -> List[str]:
        """The statements that read or make all values, as `read_places` call them."""
        if self.big:
            return [f"let row: {self.run(0)} = {trait}::read(alloc, {source})?;"]
        if self.reading is not self:
            return self.reading.all_taken(trait, source) + self.unread_made(self.unread())
        places = self.places
        if self.steps:
            pattern = "row" if self.steps < self.count else "_"
            for place in reversed(places[:self.steps]):
                pattern = f"({place}, {pattern})"
            return [f"let {pattern} = {self.step_name(0)}(alloc, {source})?;", *self.apart(places[self.steps:], self.steps)]
        return self.taken(trait, source, places)

    def whole_taken(self, source: str, made: str) -> List[str]:
        """The statements that read or make all values of a struct, and make it of them."""
        if self.made_of:
            return [f"{MADE_OF}::read_made{'_of_parts' * (not self.data.named)}::<{self.run(0)}, Self>(alloc, {source})"]
        return self.all_taken(self.trait(), source) + [f"Ok({made})"]

    @staticmethod
    def unread_made(unread: List[Tuple[Field, str]]) -> List[str]:
        """The statements that make values that aren't read."""
        return [f"let {place}: {f.type.rust()} = {plain(f.made) or 'Absent::absent(alloc)'};" for f, place in unread]

    def read_places(self) -> List[str]:
        """What code calls the values that were read or made: the struct of them, where there is one."""
        return ["row"] if self.big else self.places

    def maker_name(self) -> str:
        return self.reader.replace("read_", "make_", 1)

    def maker(self, result: Type, made: str, term: Callable[[List[str]], str]) -> List[str]:
        """The function that makes a value of the struct of all values: its contract spares proofs a look into that."""
        if not self.big:
            return []
        reading, places, beside = self.reading, self.reading.places, [place for _, place in self.unread()]
        apart = [f"let {self.run_name(start)}({', '.join(places[start:end] + ['row'] * (end < reading.count) + beside * (not start))}) = row;"
                 for start in reading.starts() for end in [start + LONGEST_ROW]]
        at = {f.name: f"row{f'.{LONGEST_ROW}' * (place // LONGEST_ROW)}.{place % LONGEST_ROW}"
              for place, f in enumerate(reading.fields)}
        first = min(reading.count, LONGEST_ROW) + (reading.count > LONGEST_ROW)
        at.update({f.name: f"row.{place}" for place, (f, _) in enumerate(self.unread(), first)})
        seen = [at[f.name] for f in self.fields]
        body = "\n".join(apart + [made])
        if self.made_of or self.made_from:
            trait, told = "MadeFrom", f"λ row. {term(seen)}"
            if self.made_of:
                trait, told = "MadeOf", f"λ z. {self.whole_term([f'z.{in_term(f.name)}' for f in self.fields])}"
            make = function(f"fn make(row: {self.run(0)}) -> {result.rust()}", *apart, made)
            return [f"impl{angled(*result.parameters())} {MADE_OF}::{trait}<{self.run(0)}> for {result.rust()} {{\n"
                    f"{ghost(snake(trait), told)}\n\n{make}\n}}\n"]
        return ["/// Its contract tells proofs what is made of the values.\n"
                f"fn {self.maker_name()}{angled(*result.parameters())}(row: {self.run(0)}) -> {result.rust()}\n"
                + clause("ensures", f"result ≡ {term(seen)}") + f"{{\n{body}\n}}\n"]

    def words(self, member: str) -> Tuple[str, str]:
        """What stands for one of its values in a member of the impls, and for the end."""
        by_key = self.by_keyed if self.skips else self.by_key
        return getattr(by_key if self.data.named else self.by_place, member)

    def parts(self, member: str, inners: List[str], sees: Optional[List[str]] = None,
              values: Optional[List[str]] = None) -> List[str]:
        """What stands for each of its values in a member of the impls, which is nothing for one that isn't sent there."""
        return [self.word_of(f, member).format(
            inner=inner, see=see, place=place, count=self.count, name=name_term(f.wire if member in ("script", "lawful") else f.known),
            or_="_or" * bool(f.missing), Or="Or" * bool(f.missing), missing=self.absent(f),
            **self.unless(place, value) if f.skips else {})
            for place, (f, inner, see, value) in enumerate(zip(self.fields, inners, sees or inners, values or inners))]

    def word_of(self, f: Field, member: str) -> str:
        """What stands for such a value, with places."""
        if member in ("script", "lawful") and (f.rest or not f.sent):
            return "{inner}" * f.sent
        if f.rest and member in REST:
            return REST[member][f.tried]
        if f.aliases() and member in ("refusal", "gives"):
            names, first, absent = (re.sub(r"[{}]", r"\g<0>\g<0>", text) for text in (
                list_term([f.known, *f.aliases()]), name_term(f.known), self.absent(f)))
            if member == "gives":
                return f"AliasedThen {names}{absent or ' (λ b. ⊥)'} {{inner}}"
            return f"aliased_then {first} {names} {'None' if f.missing else f'(Some (missing_field {first}))'} {{inner}}"
        return self.unless_words[member] if f.skips and member in self.unless_words else self.words(member)[0]

    def unless(self, place: int, value: str) -> Dict[str, str]:
        """Of a field that isn't sent where it is empty: whether it is, that what is read in its place equals it, and
        that those after it have other names."""
        f, others = self.fields[place], [one.wire for one in self.fields[place + 1:]]
        alike = f.test.alike if f.test else ALIKE[f.type.name]
        return {"skipped": f.skipped(value), "alike": f"(λ e y a. {alike.format(x=value)})",
                "others": list_term(others), "apart": f"(unfold name in {'(refl, ' * len(others)}tt{')' * len(others)})"}

    def end(self, member: str) -> str:
        """What stands after them."""
        words = ("no_others", "closed") if self.data.closed else ("others_left", "skipped")
        return self.words(member)[1].format(
            known=list_term(self.names_known), left=words[0], end=words[1], count=self.count)

    def row(self, member: str, inners: List[str], sees: Optional[List[str]] = None, start: int = 0,
            values: Optional[List[str]] = None) -> str:
        """All its values from a place on in a member of the impls, or the one, after a blank or a line's end."""
        if not self.many:
            return "".join(f" {inner}" for inner in inners)
        return nest(list(filter(None, self.parts(member, inners, sees, values)[start:])), self.end(member))

    def length(self, values: List[str], more: int = 0) -> str:
        """How many fields are sent, as contracts see it."""
        term = str(self.sent_count() + more)
        for f, value in zip(self.fields, values):
            term = f"(fields_less {f.skipped(value)} {term})" if f.skips else term
        return term

    def opening(self, values: List[str]) -> str:
        """The call that opens it, of these values."""
        head, _, count = self.call[:-1].rpartition(", ")
        for f, value in zip(self.fields, values):
            if f.skips:
                count = f"count_if(&{self.test_of(f)}, {value}, {count})" if f.test else f"count_unless({value}, {count})"
        return f"{head}, {count})" if self.skips else self.call

    def by_name(self, word: str, row: str) -> str:
        """A row of fields, which is read by name."""
        return f" ({word}{row})" if self.data.named else row

    def scripts(self, values: List[str]) -> List[str]:
        """The calls that each value makes; of what is flattened, with what follows."""
        return [f"{f.type.member('SendEntries', 'entries')} {value}" if f.rest else
                f"({f.script(value)})" for f, value in zip(self.fields, values)]

    def laws(self, values: List[str]) -> List[str]:
        """That the calls of each value spell one tree; of what is flattened, that they are entries where those after it are."""
        scripts = self.parts("script", self.scripts(values), values=values) if any(f.rest for f in self.fields) else []
        return ["" if not f.sent else f"({f.lawful(value)})" if not f.rest else
                f"{f.type.fit(value)} {nest(list(filter(None, scripts[place:])), self.end('script')).strip()} readable"
                for place, (f, value) in enumerate(zip(self.fields, values), 1)]

    def script(self, values: List[str]) -> str:
        """The calls that are made."""
        length = f" {self.length(values)}" if self.many else ""
        return f"{self.word}_script {self.names}{length}{self.row('script', self.scripts(values), values=values)}"

    def lawful(self, values: List[str]) -> str:
        """That they spell one tree."""
        return f"{self.word}_lawful{self.row('lawful', self.laws(values), values=values)}"

    def send(self, values: List[str]) -> List[str]:
        """The statements that make them."""
        if not self.many and values:
            value = f"&{self.lent(self.fields[0])}" if self.fields[0].sending else values[0]
            return self.lending(values) + [f"{self.call}.around({value}, alloc, serializer)"]
        if not self.many:
            return [f"{self.call}.send(serializer)"]
        return self.lending(values) + sending(self.opening(values), self.before + self.sent_row(values, 0), self.sent_last(values, 0))

    def lending(self, values: List[str], start: int = 0) -> List[str]:
        """The statements that make what stands for those of the values from a place on that functions of the user's send."""
        return [f"let {self.lent(f)} = {self.sent_of(f)}({value});"
                for f, value in list(zip(self.fields, values))[start:self.sent_end(start)] if f.sending]

    def lent(self, f: Field) -> str:
        """What code calls what stands for the value of a field that a function of the user's sends."""
        name = f"sent_{self.all.index(f) + 1}"
        while name in self.places:
            name += "_"
        return name

    def sent_of(self, f: Field) -> str:
        """The type that stands for such a value."""
        return f"Send{self.all.index(f) + 1}Of{self.owner}"

    def sent_row(self, values: List[str], start: int) -> List[str]:
        """The values from a place on as a row has them, as many as it has room for."""
        return [self.sent(f, value) for f, value in list(zip(self.fields, values))[start:self.sent_end(start)] if f.sent]

    def sent_end(self, start: int) -> int:
        """The place after the last value that stands in a row with the one at this place: not even that, where all are lent."""
        if self.lends:
            return start
        if any(f.sent and f.type.parameters() for f in self.fields):
            return start + LONGEST_GENERIC
        return start + (LONGEST_BORROWED if self.borrows else LONGEST_SENT)

    def with_one_lifetime(self) -> "Holder":
        """The same of values that borrow for as long as a reference to them does."""
        same = copy(self)
        same.hold(replace(self.data, fields=[replace(f, type=f.type.with_one_lifetime()) for f in self.fields]), self.places)
        same.all, same.lends = same.fields, False
        return same

    def sent_last(self, values: List[str], start: int) -> str:
        """What follows them: a struct of references to the others, or the end."""
        end = self.sent_end(start)
        return f"{self.sent_run(end)}({', '.join(values[end:])})" if end < self.count else "SendEnd"

    def sent_run(self, start: int) -> str:
        """The struct of references to the values from a place on."""
        return f"Sent{start + 1}Of{self.owner}"

    def sent_types(self) -> List[str]:
        """The declarations of such structs, and how they are sent."""
        tests = [self.test_impl(f) for f in self.fields if f.test]
        tests += [sender(self.sent_of(f), f, self.test_of(f)) for f in self.fields if f.sending]
        holder = self.with_one_lifetime() if self.lends else self
        starts = range(self.sent_end(0), self.count, holder.sent_end(0))
        return tests + [holder.run_sent(start) for start in starts if self.many]

    def run_sent(self, start: int) -> str:
        """The struct of references to the values from a place on, and how it is sent."""
        whole, left = self.sent_run(start), range(self.count - start)
        seen = [f"row.{place - start}.now" for place in range(self.count)]
        script = self.row("script", self.scripts(seen), start=start, values=seen)
        values = [""] * start + [f"self.{place}" for place in left]
        send = function("fn send<S: Serializer>(&self, alloc: Global, serializer: &mut S, error: &mut serde_content::Error)"
                        " -> serde_content::ser::Sent",
                        *self.lending(values, start), *row_of(self.sent_row(values, start), self.sent_last(values, start)),
                        "serde_content::derive_support::SendRow::send(&row, alloc, serializer, error)")
        types = ", ".join(f"&{LT_SENT} {f.type.rust()}" for f in self.fields[start:])
        parameters = self.data.arguments(start)
        lifetimes = [LT_SENT, *(one for f in self.fields[start:] for one in f.type.borrows() if one != STATIC)]
        borrows = list(dict.fromkeys(lifetimes))
        whole, given = f"{whole}{angled(*borrows, *parameters)}", angled(*borrows, *bounded(parameters, "Serialize", bare=self.data.bare()))
        return (f"/// The values from place {start + 1} on, as they are sent.\n#[derive(Drop)]\nstruct {whole}({types});\n\n"
                f"impl{given} serde_content::derive_support::SendRow for {whole} {{\n"
                f"{ghost('script', f'λ row. {bare(script)}')}\n\n{send}\n}}\n")

    def sent(self, f: Field, value: str) -> str:
        """A value as a row has it, before those after it."""
        if f.rest:
            return f"SendAll({value}, row)"
        if not self.data.named:
            return f"SendPart({f'&{self.lent(f)}' if f.sending else value}, row)"
        if f.sending:
            return f"{self.row_named}{'Unless' * f.skips}({self.announced(f)}, &{self.lent(f)}, row)"
        if f.test:
            names, index = self.announced(f).split(", ")
            return f"{self.row_named}If({names}, {self.test_of(f)}, {index}, {value}, row)"
        return f"{self.row_named}{'Unless' * f.skips}({self.announced(f)}, {value}, row)"

    def refusal_row(self) -> str:
        if self.reading is not self:
            return self.reading.refusal_row()
        if self.big:
            return f"\n({self.run_member(0, 'refusal')})"
        return self.row("refusal", self.refusals())

    def refusals(self) -> List[str]:
        """What each of its values refuses."""
        return [f"({self.type_read(f).member(READ, 'refusal')})" for f in self.fields]

    def refusal(self) -> str:
        """What is refused of it."""
        return f"{self.word}_refusal{self.head}{self.by_name('read_by_name', self.refusal_row())}"

    def given(self, values: List[str]) -> List[str]:
        """What each of them may give."""
        refused = [f"({f.read_as().member(READ, 'refusal')}) " * f.tried for f in self.fields]
        given = [f"(record {{ 0 = {v} }})" if f.reading else v for f, v in zip(self.fields, values)]
        return [f"{refusal}({self.type_read(f).member(READ, 'gives')}) {v}" for refusal, f, v in zip(refused, self.fields, given)]

    def gives_row(self, values: List[str]) -> str:
        if self.big:
            return f"\n({self.run_member(0, 'gives')}\n{self.whole_term(values)})"
        if self.reading is not self:
            read = self.reading.gives_row(self.those_of(values, self.reading.fields))
            unread = [(f, value) for f, value in zip(self.fields, values) if not f.read]
            return nest([f"UnreadThen{f.absent()} {value}" for f, value in unread], read.lstrip())
        return self.row("gives", self.given(values))

    def gives(self, values: List[str]) -> str:
        """What it may give."""
        return f"{self.camel}Gives{self.head}{self.by_name('ReadByName', self.gives_row(values))}"

    def read(self, make: Callable[[List[str]], str]) -> List[str]:
        """The statements that read it and make a value of what came."""
        more = {"Struct": f"{self.list}::names()", "Tuple": str(self.reading.count)}.get(self.data.style)
        arguments = ", ".join(filter(None, ["alloc", self.name, more]))
        start = f"{'variant.' if self.of_variant else 'from.deserialize_'}{self.word}({arguments})?"
        places = self.read_places()
        if not self.fields:
            return [f"{start};", f"Ok({make([])})"]
        if self.data.named and not self.of_variant:
            return [f"read_struct::<{self.list}, Self>(alloc, from)"]
        if self.made_from and self.data.named:
            return [f"{MADE_OF}::read_variant_made_from::<{self.list}, {self.run(0)}, Self>(alloc, variant)"]
        if self.made_from:
            return [f"{MADE_OF}::read_tuple_variant_made_from::<{self.run(0)}, Self>(alloc, variant, {self.reading.count})"]
        if self.data.named:
            return [f"let fields = {start}.by_name();", *self.variant_taken(places), f"Ok({make(places)})"]
        if self.many and not self.of_variant:
            return [f"let parts = {start};", *self.whole_taken("parts", make(places))]
        if self.many:
            return [f"let parts = {start};", *self.variant_taken(places), f"Ok({make(places)})"]
        before, given = ([], start) if self.of_variant else ([f"let inside = {start};"], "inside.deserialize(alloc)?")
        if self.fields[0].reading:
            return [*before, f"let {self.read_of(self.fields[0])}({places[0]}) = {given};", f"Ok({make(places)})"]
        return [*before, f"Ok({make([given])})"]

    def variant_taken(self, places: List[str]) -> List[str]:
        """The statements that read a variant's fields or values."""
        if self.big or not (self.unread() or self.data.named):
            return self.every_taken()
        return [f"let {together(places)} = {self.reader}(alloc, {self.source()})?;"]

    def source(self) -> str:
        """What they are read from."""
        return "fields" if self.data.named else "parts"

    def every_taken(self) -> List[str]:
        """The statements that read or make all values, out of that."""
        return self.all_taken(self.trait(), self.source())

    def read_function(self, made: str, result: Type, values: List[str]) -> List[str]:
        """The function that reads fields by name, or values by place of which some aren't read, and makes a value of this
        type, of which contracts see these values."""
        if not self.fields or not (self.data.named or self.unread()):
            return []
        lines = self.every_taken() + [f"Ok({made})"]
        return [fields_reader(self.reader, result, self.refusal_row(), self.gives_row(values), lines, self.data.named)]

    def read_impl(self, made: str, whole: Type, values: List[str]) -> List[str]:
        """How the fields of this struct are read, wherever they are; contracts see these values of it."""
        if not self.data.named or not self.fields:
            return []
        read = function(f"fn read<'n: 'de>(alloc: Global, fields: FieldsByName<'de, 'n>) -> Result<{whole.rust()}>",
                        *self.whole_taken("fields", made))
        members = [ghost("refusal", bare(self.refusal_row())), ghost("gives", f"λ z. {self.gives_row(values)}")]
        members = [*self.named_by(ghost("name", bare(name_term(self.wire)))), *members,
                   *self.named_by(name_method("name", self.wire)), read]
        given = angled(LT_DE, *bounded(whole.parameters(), READ, bare=whole.bare()))
        return [f"impl{given} {self.read_by}<'de> for {whole.rust()} {{\n" + "\n\n".join(members) + "\n}\n"]

    @staticmethod
    def named_by(member: str) -> List[str]:
        """A member that says the name of what is read."""
        return [member]

    def trip_row(self, member: str, laws: List[str], values: List[str], sees: List[str]) -> str:
        """All its values in a law of what comes back, each with the fact that it exists."""
        asked, inner = self.data.asked(), []
        for f, law, value in zip(self.fields, laws, values):
            real = "tt" if f.plain else "real" if len(asked) == 1 else f"real.{asked.index(f)}"
            inner.append(f"{law} {value} {real}")
        return self.row(member, inner, sees, values=values)

    def back_row(self, values: List[str], sees: List[str]) -> str:
        row = self.trip_row("back", [f.type.typed_back() for f in self.fields], values, sees)
        return f" ({self.as_named}{row})" if self.skips else row

    def kept_row(self, values: List[str], sees: List[str]) -> str:
        return self.trip_row("kept", [f.type.typed_kept() for f in self.fields], values, sees)

    def kept(self, values: List[str], sees: List[str]) -> str:
        """That what is sent comes back from CBOR."""
        return self.by_name("by_name_kept", self.kept_row(values, sees))

    def back(self, values: List[str], sees: List[str]) -> str:
        """That what is sent comes back, where a fact `real` says what exists."""
        return self.by_name("by_name_back", self.back_row(values, sees))

    def keeps_row(self, sees: List[str]) -> str:
        return self.row("keeps", [f.type.typed_keeps() for f in self.fields], sees)

    def keeps(self, sees: List[str]) -> str:
        """That what is given without coercion is given with it."""
        return self.by_name("by_name_keeps", self.keeps_row(sees))

    def exists(self, values: List[str]) -> str:
        """The fact of which values exist."""
        return " × ".join(f"{f.type.member(TRIP, 'exists')} {v}"
                          for f, v in zip(self.fields, values) if not f.plain) or "⊤"
