"""What is written of an enum that is tagged adjacently: structs of a field that names the variant, and of one with its content,
where it holds something."""
from copy import copy
from typing import Callable, List

from .cases import pascal
from .declarations import Data, Field, Item, Variant
from .entries import FOLLOWING, Entries, entry_around
from .held import HeldWriter
from .holder import BY_PLACE, LONGEST_ROW, Holder, row_of
from .literals import name_term
from .tagged import TaggedHolder, TaggedWriter
from .text import all_hold, bare, clause, facts, fields_reader, ghost, ghost_type, together
from .types import DEFAULTS, READ, Type, angled, in_term, nest

MOST_AT_ONCE = 8  # of more variants it is proved one by one that they come back: the checker's steps for one proof are so many
MOST_LOOKED_AT = 200  # and where more types, of which the values are made, are looked at for all variants
MOST_COMPARED = 20  # of a content whose values are made of more types, the law is named before it is compared
LONGEST_BESIDE = 5  # as many values by name are sent in one row with the tag: proofs of longer ones are not found
MOST_BORROWED = 2  # as many stand there in a row with references in what it refers to
ELEMENTS = BY_PLACE._replace(
    script=("element_first {inner}", "end_script"),
    lawful=("element_fits {inner}", "end_fits"),
    back=("element_back {inner} {see} {count} {place}", "(parts_end {count})"),
    kept=("element_kept {inner} {see} {count} {place}", "(parts_end_kept {count})"))


class TupleHolder(Holder):
    """Values by place, as a tuple of them has them."""

    by_place = ELEMENTS

    def __init__(self, data: Data, owner: str):
        super().__init__("Struct", [], data, owner)
        self.word, self.head, self.call = "tuple", f" {self.count}", f"Call::Tuple({self.count})"

    def script(self, values: List[str]) -> str:
        return f"tuple_script{self.head}{self.row('script', self.scripts(values))}"

    def sent(self, f: Field, value: str) -> str:
        return f"SendElement({value}, row)"


def told_by(item: Item) -> str:
    """The trait that tells the script of an enum."""
    return f"ToldOf{pascal(item.owner)}"


class ContentHolder(TaggedHolder):
    """What stands beside the tag of a variant of several values: its content, a struct or a tuple of them."""

    def __init__(self, item: Item, v: Variant):
        self.struct = HeldWriter(item, v, v.content, v.wire) if v.data.named else None
        self.inside = self.struct.holder if self.struct else TupleHolder(v.data, v.content)
        self.inside.lends |= bool(self.struct) and self.inside.borrows and self.inside.count > MOST_BORROWED
        content = item.serde["content"]
        self.held = Type("tuple", tuple(f.type for f in v.data.fields))
        if self.struct:
            self.held = Type(self.struct.item.name + angled(*v.data.arguments(0)))
        self.sees = [f"(λ q. q.{in_term(f.name)})" for f in v.data.fields]
        self.told = told_by(item)
        super().__init__(item, item.serde["tag"], v, [Field("x1", v.line, [], {}, content, content, type=self.held)])

    def term(self, values: List[str]) -> str:
        """The content as contracts make it."""
        return f"({self.inside.data.term(values)})" if self.struct else together(values)

    def pattern(self, places: List[str]) -> str:
        """The content as code takes it apart."""
        return self.inside.data.made(self.struct.item.name, places) if self.struct else together(places)

    def scripts(self, values: List[str]) -> List[str]:
        return [f"({self.inside.script(values)})"]

    def laws(self, values: List[str]) -> List[str]:
        return [f"({self.inside.lawful(values)})"]

    def given(self, values: List[str]) -> List[str]:
        return super().given([self.term(values)])

    def exists(self, values: List[str]) -> str:
        return self.inside.exists(values)

    @property
    def parted(self) -> bool:
        """Whether another function sends what is around the values, so that no proof looks into both at once."""
        return bool(self.struct) and not self.inside.skips and self.inside.sent_count() > LONGEST_BESIDE

    def sent_types(self) -> List[str]:
        return super().sent_types() + [*[self.inside.run_sent(0)] * (not self.inside.lends), self.around()] * self.parted

    def around_name(self) -> str:
        """The function that sends what is around the values, and these."""
        return self.inside.reader.replace("read_", "send_whole_", 1)

    def around(self) -> str:
        """That function. It is told that the script of the whole is what it sends: the proof that this is so looks into the
        values, and nowhere else."""
        script = self.script_of([f"(struct_script {self.inside.names} {self.inside.sent_count()} (Following.script row))"], [""])
        body = "\n".join(["let _whole = whole;", *self.send_around(self.inside.call)])
        return (f"/// Sends the values of such a content, and what is around them.\nfn {self.around_name()}<S: Serializer,"
                f" Whole: {self.told}, {FOLLOWING} + Drop>(alloc: Global, serializer: &mut S,"
                " whole: &Whole, row: Following) -> Result<()>\n"
                + clause("requires", f"Whole.told whole.now ≡ {script}")
                + clause("ensures", "Sends S.step S.refuses (S.seen serializer.old) (Whole.told whole.now)\n"
                         "result (S.seen serializer.new)")
                + f"{{\n{body}\n}}\n")

    def send_around(self, opening: str) -> List[str]:
        """The statements that send a row of what is in the content, and what is around it."""
        content = f"SendInside({self.announced(self.fields[0])}, row, SendEnd)"
        rows = [f"SendOpen({opening}, row)", content, *reversed(self.before), f"SendOpen({self.call}, row)"]
        return [*(f"let row = {row};" for row in rows), "send_row(alloc, serializer, &row)"]

    def send(self, values: List[str]) -> List[str]:
        inside = self.inside
        if self.parted:
            return [f"let row = {inside.sent_run(0)}({', '.join(values)});", f"{self.around_name()}(alloc, serializer, whole, row)"]
        rows = row_of(inside.sent_row(values, 0), inside.sent_last(values, 0))
        return inside.lending(values) + rows + self.send_around(inside.opening(values))

    def field_reader(self) -> str:
        """The function that reads the content."""
        gives = self.row("gives", super().given(["z"]))
        lines = [*self.all_taken("ReadFields", "fields"), "Ok(x1)"]
        return fields_reader(self.reader, self.held, self.refusal_row(), gives, lines)

    def content_row(self, member: str, law: str, *script: str) -> str:
        """A law of the content, and that nothing else is beside the tag."""
        known = "\n".join([*script, self.refusals()[0], f"({self.held.member(READ, 'gives')})"])
        return nest([f"content_{member} {name_term(self.fields[0].wire)} {known}\n({law})"], self.end(member))

    def back_row(self, values: List[str], sees: List[str]) -> str:
        law = f"λ g. {self.inside.word}_back{{}}\ng (λ q h. h)"
        return self.content_row("back", self.named_first(law, self.inside.back, values), *self.scripts(values))

    def kept_row(self, values: List[str], sees: List[str]) -> str:
        law = f"{self.inside.word}_kept{{}}\n(λ q h. h)"
        return self.content_row("kept", self.named_first(law, self.inside.kept, values), *self.scripts(values))

    def named_first(self, law: str, rows: Callable[[List[str], List[str]], str], values: List[str]) -> str:
        """This law of these rows. Where they are many, or of many types, they are named first, and so compared with what is asked but
        once."""
        many = self.inside.count > LONGEST_ROW or sum(f.type.weight() for f in self.inside.fields) > MOST_COMPARED
        if not (self.parted or (self.struct and many)):
            return law.format(rows(values, self.sees))
        sees = [see.replace("λ q.", f"λ (q : {self.struct.item.name}).") for see in self.sees]
        return f"let law = {bare(rows(values, sees))} in {law.format(' law')}"

    def keeps_row(self, sees: List[str]) -> str:
        return self.content_row("keeps", f"{self.inside.word}_keeps{self.inside.head}{self.inside.keeps(self.sees)}")


class AdjacentWriter(TaggedWriter):
    """The impls of an enum that is tagged adjacently."""

    buffered = ""

    def holder(self, v: Variant) -> TaggedHolder:
        if not (v.sent or v.read):
            return TaggedHolder(self.item, self.tag, v, [])
        if v.data.several:
            return ContentHolder(self.item, v)
        content = self.item.serde["content"]
        fields = [Field("x1", f.line, [], {}, content, content, type=f.type, origin=f.origin, given=f.given,
                        missing=DEFAULTS["Option"] if f.type.name == "Option" else "") for f in v.data.fields]
        return TaggedHolder(self.item, self.tag, v, fields)

    def functions(self) -> List[str]:
        held = [holder.struct for _, holder in self.variants if isinstance(holder, ContentHolder) and holder.struct]
        parted = any(v.sent and isinstance(holder, ContentHolder) and holder.parted for v, holder in self.variants)
        return [text for struct in held for text in struct.texts()] + [self.told()] * (self.sends and parted) + super().functions()

    @property
    def one_by_one(self) -> bool:
        """Whether that values come back is proved of each variant by itself."""
        several = any(isinstance(holder, ContentHolder) for _, holder in self.variants)
        types = sum(f.type.weight() for v, _ in self.variants for f in v.data.fields)
        many = len(self.variants) > MOST_AT_ONCE or len(self.variants) * types > MOST_LOOKED_AT
        return several and many and not self.item.parameters and self.item.comes_back()

    def back_name(self) -> str:
        """The trait that says so."""
        return f"BackOf{pascal(self.item.owner)}"

    def backs_trait(self) -> str:
        """Its declaration."""
        types = [ghost_type(f"variant_{i}", self.back_type(v, holder)) for i, (v, holder) in enumerate(self.variants)]
        members = "\n".join(types)
        return f"/// That each variant comes back.\ntrait {self.back_name()}<'de> {{\n{members}\n}}\n"

    def back_type(self, v: Variant, holder: Holder) -> str:
        """What is said of a variant."""
        values = self.leaves(v)
        given = "".join(f"({value} : {f.type.seen()}) " for value, f in zip(values, v.data.fields))
        whole = " ".join([f"{self.cases}.{in_term(v.name)}", *values])
        members = "\n".join(f"(⟦<{self.whole} as {trait}>⟧.{member})" for trait, member in (
            ("Serialize", "script"), (READ, "refusal"), (READ, "gives"), ("PartialEq", "eq")))
        return f"{given}→ {holder.exists(values)} →\nComesBackAt {members}\n({whole})".removeprefix("→ ")

    def back_members(self) -> List[str]:
        """The members of its impl."""
        apart = copy(self)
        apart.own = f"⟦<{self.whole} as {READ}>⟧"
        laws = [(self.leaves(v), apart.variant_back(v, holder, self.leaves(v))) for v, holder in self.variants]
        return [ghost(f"variant_{i}", f"λ {' '.join([*values, law.removeprefix('λ ')])}") for i, (values, law) in enumerate(laws)]

    def back(self) -> str:
        if not self.one_by_one:
            return super().back()
        names = {v.name: f"⟦<{self.whole} as {self.back_name()}<'de>>⟧.variant_{i}" for i, (v, _) in enumerate(self.variants)}
        return f"record {{\nof_value = {self.each(lambda v, holder, x: ' '.join([names[v.name], *x]))};\n}}"

    def told(self) -> str:
        """The trait by which functions know the script of this enum that don't know the enum."""
        trait = told_by(self.item)
        given = angled(*self.item.lifetimes, *self.item.bounds("Serialize"))
        return (f"/// What it is sent by.\ntrait {trait} {{\n/// Its script.\nghost told: {{ Self → Bool → Script }};\n}}\n\n"
                f"impl{given} {trait} for {self.whole} {{\n{ghost('told', f'λ y. ⟦<{self.whole} as Serialize>⟧.script y')}\n}}\n")

    @staticmethod
    def made_of_content(holder: Holder) -> bool:
        """Whether a variant is made of its content by a function of its own, so that no proof of reading takes it apart."""
        return isinstance(holder, ContentHolder) and bool(holder.struct) and holder.inside.count > LONGEST_ROW

    def maker(self, v: Variant, holder: Holder) -> List[str]:
        if not self.made_of_content(holder):
            return super().maker(v, holder)
        values = " ".join(f"content.{in_term(f.name)}" for f in v.data.fields)
        places = v.data.places()
        return ["/// Its contract tells proofs what is made of the content.\n"
                f"fn {holder.maker_name()}{angled(*self.item.parameters)}(content: {holder.held.rust()}) -> {self.whole}\n"
                + clause("ensures", f"result ≡ {self.cases}.{in_term(v.name)} {values}")
                + f"{{\nlet {holder.pattern(places)} = content;\n{self.made(v, places)}\n}}\n"]

    def reader(self, v: Variant, holder: Holder) -> List[str]:
        return [holder.field_reader()] if isinstance(holder, ContentHolder) else super().reader(v, holder)

    def entries_of(self, v: Variant, holder: Holder) -> Entries:
        if not isinstance(holder, ContentHolder):
            return super().entries_of(v, holder)
        content = holder.fields[0]
        return entry_around(content.wire, holder.announced(content), holder.inside, self.leaves(v), self.sent(v), holder)

    def arm_lines(self, v: Variant, holder: Holder) -> List[str]:
        if not isinstance(holder, ContentHolder):
            return super().arm_lines(v, holder)
        if self.made_of_content(holder):
            return [f"Ok({holder.maker_name()}({holder.reader}(alloc, fields)?))"]
        places = v.data.places()
        return [f"let {holder.pattern(places)} = {holder.reader}(alloc, fields)?;", f"Ok({self.making(v, holder)(places)})"]

    @staticmethod
    def sees(holder: Holder) -> List[str]:
        return holder.sees if isinstance(holder, ContentHolder) else TaggedWriter.sees(holder)

    @staticmethod
    def term(holder: Holder, values: List[str]) -> str:
        return holder.term(values) if isinstance(holder, ContentHolder) else together(values)

    def read(self, sent: Variant, read: Variant, named: str = "it.0", held: str = "it.1") -> str:
        holder = next(holder for v, holder in self.variants if v is read)
        if read is not sent or not isinstance(holder, ContentHolder):
            return super().read(sent, read, named, held)
        values = self.leaves(read, "y")
        return (f"{self.case(read, 'y')} λ it. let same = only {holder.term(values)} {held} in"
                f" {all_hold(facts(len(values), 'same.0'))}")
