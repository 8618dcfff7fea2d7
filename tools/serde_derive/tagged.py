"""What is written of a tagged enum: structs of which one field names the variant, and the others or
one other hold its values."""
import re
from typing import Iterator, List, Optional

from .cases import pascal
from .declarations import Data, Field, Item, Refused, Variant
from .entries import Entries, row_entries
from .enums import EnumWriter, sent_names
from .holder import MADE_OF, Holder
from .literals import list_impl, name_call, name_method, name_term, opened
from .text import DESERIALIZE, bare, elim, function, ghost, together
from .types import HASHED, MOST_IN_TUPLE, nest


def beside_tag(v: Variant) -> List[Field]:
    """The fields of a variant beside an internal tag."""
    return v.beside.data.fields if v.beside else v.data.fields


def beside_signed(item: Item, v: Variant) -> Optional[Field]:
    """What is not covered among a variant's values in a content, as one of them is a signed number: what is hashed, and by place a
    tuple. Proofs of reading both are not found."""
    if not ("Deserialize" in item.derives and v.read and v.data.several and v.signed()):
        return None
    return next((f for f in v.data.fields if f.type.name in HASHED or f.type.name == "tuple" and not v.data.named), None)


def check_tagged(item: Item) -> Iterator[Refused]:
    """Refuses variants that are not covered beside a tag, and names that are the tag's."""
    tag, content = item.serde["tag"], item.serde.get("content")
    if tag == content:
        yield Refused(item.line, f"the tag and the content are both called `{tag}`: give one of them another name", item.name)
    for v in item.variants:
        where = f"{item.name}.{v.name}"
        if not (v.sent or v.read):
            continue
        elif content and v.skips_a_place():
            yield Refused(v.line, "of an enum that is tagged adjacently no value by place is skipped: give the values names", where)
        elif content and v.data.style == "Tuple" and len(v.data.fields) > MOST_IN_TUPLE:
            yield Refused(v.line, "of an enum that is tagged adjacently, only variants with no values, with values by name, and"
                          " with one to four by place, are covered: hold a struct of them", where)
        elif content and (found := beside_signed(item, v)):
            yield Refused(found.line, f"of an enum that is tagged adjacently, `{found.type.written()}` is not covered beside a signed"
                          " number: hold a struct of them", f"{where}.{found.name}")
        elif not content and v.data.style == "Tuple":
            yield Refused(v.line, "of an enum that is tagged internally, only variants with no values and with a struct, or"
                          " values by name, are covered: hold a struct of them", where)
        elif not content and any(tag in [f.wire] * f.sent + [f.known, *f.aliases()] * f.read for f in beside_tag(v)):
            yield Refused(v.line, f"a field is called as the tag, `{tag}`: give one of them another name", where)


class TaggedHolder(Holder):
    """What stands beside the tag of a variant: fields, or none."""

    def __init__(self, item: Item, tag: str, v: Variant, fields: List[Field]):
        data, name = Data("Struct", fields, (v.beside or v).data.closed), (v.beside or item).wire
        super().__init__("Struct", [name], data, v.owner)
        self.names_known = [tag] + self.names_known
        self.names_sent = self.names_known if self.sent_list == self.list else [tag] + self.names_sent
        self.tag, self.variant = tag, v.wire
        self.call = f"Call::Struct({name_call(name)}, {self.sent_count() + 1})"
        names, sent = sent_names(item)
        self.tag_row = f"({self.sent_list}, {names}, {sent.index(v.wire) if v.sent else 0}, row)"
        self.before = [f"SendTag{self.tag_row}"]

    def room(self) -> int:
        return self.room_in_variant()

    def script(self, values: List[str]) -> str:
        return self.script_of(self.scripts(values), values)

    def script_of(self, inners: List[str], values: List[str]) -> str:
        """The calls that are made, of those that each value makes."""
        head = f"tagged_script {self.names} {self.length(values, 1)} {name_term(self.tag)} {name_term(self.variant)}"
        return head + self.row("script", inners, values=values)

    def lawful(self, values: List[str]) -> str:
        laws = filter(None, self.parts("lawful", self.laws(values), values=values))
        return "struct_lawful" + nest(["field_fits (leaf_lawful refl)", *laws], "struct_end_fits")


class TaggedWriter(EnumWriter):
    """The impls of an enum that is tagged internally."""

    buffered = "buffered"  # what the words say where the fields beside the tag are read out of a buffer

    def __init__(self, item: Item):
        super().__init__(item)
        self.tag = item.serde["tag"]
        self.variants = [(v, self.holder(v)) for v in item.variants]

    def holder(self, v: Variant) -> TaggedHolder:
        """What stands beside the tag of a variant."""
        holder = TaggedHolder(self.item, self.tag, v, beside_tag(v) if v.sent or v.read else [])
        holder.of_enum = not v.beside
        return holder

    def names_list(self) -> List[str]:
        known = [list_impl(self.list, "The names of its variants.", [v.known for v, _ in self.readable()])]
        sent, names = sent_names(self.item)
        return known + [list_impl(sent, "The names of the variants that are sent.", names)] * (self.sends and sent != self.list)

    def alone(self, v: Variant) -> bool:
        return False

    def refusal_of(self, holder: Holder) -> str:
        return holder.refusal_row()

    def gives(self, holder: Holder, values: List[str]) -> str:
        return holder.gives_row(values).strip()

    def arm_lines(self, v: Variant, holder: Holder) -> List[str]:
        if not v.data.fields:
            read, places = [f"let _: {holder.row_type(0)} = ReadFields::read(alloc, fields)?;"], []
        elif v.beside:
            places = v.data.places()
            read = [f"let {places[0]} = {holder.reader}(alloc, fields)?;"]
        elif holder.made_from:
            return [f"{MADE_OF}::read_made_from::<{holder.run(0)}, Self>(alloc, fields)"]
        else:
            places = holder.read_places()
            read = holder.variant_taken(places)
        return [*read, f"Ok({self.making(v, holder)(places)})"]

    def entries_of(self, v: Variant, holder: Holder) -> Entries:
        return row_entries(holder, self.leaves(v), self.sent(v))

    variants_trait = "TaggedVariants<'de>"
    source = "fields"

    def variants_impl(self) -> List[str]:
        read = (f"fn read_variant<'n: 'de>(alloc: Global, tag: &str, fields: FieldsByName<'de, 'n>)"
                f" -> Result<{self.whole}>")
        ghosts = self.variants_ghosts()
        return [*ghosts[:1], ghost("tag_name", bare(name_term(self.tag))), *ghosts[1:],
                name_method("name", self.item.wire), name_method("tag", self.tag),
                self.looking() + function(read, *self.dispatch("tag"))]

    def deserialize(self) -> List[str]:
        name, tag, refusal = name_term(self.item.wire), name_term(self.tag), self.member("refusal")
        ending, then = "_buffered" * bool(self.buffered), f"TagThen{self.buffered.title()}"
        read = "read_tagged" if self.buffered else "read_adjacent"
        if self.tags:
            refusal, then = f"(λ tag. {refusal} {self.meant})", f"{then}By (λ tag. {self.meant})"
            read = f"{read}_by::<TagsOf{pascal(self.item.owner)}, Self>"
        fields = f"{then} {tag}\n({self.member('named')} y)\n({self.member('held')} y)"
        return [ghost("refusal", f"struct_refusal {name} (read_by_name (tag_then{ending} {tag}\n{refusal}))"),
                ghost("gives", f"λ s y. StructGives {name} (ReadByName\n({fields})) s"),
                function(DESERIALIZE.format(self.whole), f"{read}(alloc, from)")]

    @staticmethod
    def unit(v: Variant, row: str) -> str:
        """A row of no fields, with the type of what it gives."""
        return row if v.data.fields else re.sub(r"\((skipped|closed)_(back|keeps|kept) ", r"(\1_\2 {Y = Unit {0}} ", row)

    def variant_back(self, v: Variant, holder: Holder, values: List[str]) -> str:
        row = self.unit(v, holder.back_row(values, self.sees(holder)))
        beside = "(buffering f)" if self.buffered else "f"
        return (f"λ real f. tagged_back {self.own}.refusal {self.own}.gives{row}\nf {beside} refl ({opened('λ fs. refl')})\n"
                f"({opened('λ fs only. ' + elim([self.read(v, w) for w in self.item.variants]))})")

    def variant_kept(self, v: Variant, holder: Holder, values: List[str]) -> str:
        row = self.unit(v, holder.kept_row(values, self.sees(holder)))
        inside = "true" if self.buffered else "b"
        return (f"λ real. tagged_kept {self.own}.refusal {self.own}.gives{row}\n(λ b. {inside}) ({opened('λ b fs. refl')})\n"
                f"({opened('λ b fs only. ' + elim([self.read(v, w) for w in self.item.variants]))})")

    @staticmethod
    def term(holder: Holder, values: List[str]) -> str:
        """What the fields beside the tag give, of these values."""
        return together(values)

    def variant_keeps(self, v: Variant, holder: Holder, values: List[str]) -> str:
        return (f"λ p.\nlet q = (struct_keeps {name_term(self.item.wire)} (by_name_keeps\n"
                f"({self.tag_keeps(v, holder)}))).of_origin o people"
                f" {self.term(holder, values)}\n(record {{ free = p.free; given = p.given }}) in\n"
                "record { free = q.free; given = q.given }")

    def tag_keeps(self, v: Variant, holder: Holder) -> str:
        """The law that what the fields give without coercion they give with it."""
        words = f"{name_term(self.tag)} {name_term(v.wire)} {self.member('refusal')}"
        if not self.buffered:
            row = self.unit(v, holder.keeps_row(self.sees(holder)))
            return f"tag_keeps {{own ={holder.refusal_row()}}} {words}\n({opened('λ f. refl')}){row}"
        values = ["z"] if holder.count == 1 else [f"z.{i}" for i in range(holder.count)]
        seen = " × ".join(f.type.seen() for f in holder.fields) or "Unit {0}"
        return f"tag_keeps_buffered {words}\n(λ (z : {seen}).{holder.gives_row(values)})"
