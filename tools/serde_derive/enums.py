"""The impls of an enum that is tagged externally, and what those of others share with them."""
from typing import Callable, List, Tuple

from .attributes import DEFAULT
from .cases import pascal
from .declarations import Data, Item, Variant
from .entries import AROUND, FOLLOWING, SEND_ENTRIES, SENT, Entries, entry_around, entry_of
from .holder import Holder
from .literals import ROWS_OPENED, list_impl, list_term, name_method, name_term, opened
from .structs import made_absent
from .text import ABSENT, DESERIALIZE, KNOWN, REFUSED_NULL, SERIALIZE, all_hold, arm, bare, bracketed, clause
from .text import codes, elim, facts, function, ghost, together
from .types import LT_DE, READ, TRIP, Type, angled, in_term


def sent_names(item: Item) -> Tuple[str, List[str]]:
    """The type that stands for the names of an enum's variants as they are sent, and the names."""
    known = [v.known for v in item.variants if v.read]
    if all(v.wire == v.known and v.read for v in item.variants if v.sent):
        return f"NamesOf{pascal(item.owner)}", known
    return f"SentOf{pascal(item.owner)}", [v.wire for v in item.variants if v.sent]


class EnumWriter:
    """The impls of an enum, each member by cases."""

    def __init__(self, item: Item):
        self.item, self.name, self.cases, self.whole = item, name_term(item.wire), item.cases, item.itself().rust()
        self.own = f"⟦<{self.whole} as {READ}>⟧" if item.held_as else "Self"
        self.list = f"NamesOf{pascal(item.owner)}"
        self.sends, self.reads = "Serialize" in item.derives, "Deserialize" in item.derives
        self.variants = [(v, Holder("Variant", [item.wire, i, v.wire], v.data, v.owner))
                         for i, v in enumerate(item.variants)]
        for _, holder in self.variants:
            holder.of_enum = True
        self.tags, self.meant = self.tag_names()

    def readable(self) -> List[Tuple[Variant, Holder]]:
        """The variants that are read."""
        return [(v, holder) for v, holder in self.variants if v.read]

    def tag_names(self) -> Tuple[str, str]:
        """The type that stands for what tags mean, where some mean other names, and what contracts see of it."""
        pairs = [(alias, v.known) for v in self.item.variants for alias in v.aliases()]
        other = [i for i, v in enumerate(v for v in self.item.variants if v.read) if "other" in v.serde]
        named = [v.known for v in self.item.variants if v.read]
        owner = pascal(self.item.owner)
        tags, meant = "OwnNames", "tag"
        if pairs:
            tags = f"Aliases<AliasesOf{owner}, MeantOf{owner}>"
            meant = f"(meant {list_term([alias for alias, _ in pairs])} {list_term([name for _, name in pairs])} {meant})"
        if other:
            tags = f"OtherAt<{tags}, {self.list}, {other[0]}>"
            meant = f"(meant_among {list_term(named)} {name_term(named[other[0]])} {meant})"
        return (tags, meant) if pairs or other else ("", "")

    def tag_types(self) -> List[str]:
        """The declarations of that type, and of the names in it."""
        pairs = [(alias, v.known) for v in self.item.variants for alias in v.aliases()]
        owner = pascal(self.item.owner)
        lists = [list_impl(f"AliasesOf{owner}", "Further names of its variants.", [alias for alias, _ in pairs]),
                 list_impl(f"MeantOf{owner}", "What each of them stands for.", [name for _, name in pairs])] * bool(pairs)
        return lists + [f"type TagsOf{owner} = {self.tags};\n"] * bool(self.tags)

    @staticmethod
    def values(data: Data, letter: str = "x") -> List[str]:
        return [f"{letter}{i + 1}" for i in range(len(data.fields))]

    @classmethod
    def leaves(cls, v: Variant, letter: str = "x") -> List[str]:
        """The values that are sent and read, as contracts call them."""
        if v.beside:
            return [f"{letter}1.{in_term(f.name)}" for f in v.beside.data.fields]
        return cls.values(v.data, letter)

    def sent(self, v: Variant) -> List[str]:
        """The same as code calls them."""
        return [f"&x1.{f.name}" for f in v.beside.data.fields] if v.beside else v.data.places()

    def case(self, v: Variant, letter: str = "x") -> str:
        """A variant as a pattern of contracts."""
        return " ".join([f"{self.cases}.{in_term(v.name)}"] + self.values(v.data, letter)) + " ↦"

    def each(self, term: Callable[[Variant, Holder, List[str]], str]) -> str:
        return elim([f"{self.case(v)} {term(v, holder, self.leaves(v))}" for v, holder in self.variants])

    def made(self, v: Variant, places: List[str]) -> str:
        return v.data.made(f"{self.item.name}::{v.name}", places)

    def functions(self) -> List[str]:
        """Those that the impls call."""
        return [text for v, holder in self.variants
                for text in self.maker(v, holder) * (self.reads and v.read) + holder.names_list() * (v.sent or v.read)
                + (holder.sent_types() + self.whole_sender(v, holder)) * (self.sends and v.sent)
                + (holder.row_types() + self.reader(v, holder)) * (self.reads and v.read)] + self.names_list() + (
                    self.tag_types() * self.reads)

    def whole_sender(self, v: Variant, holder: Holder) -> List[str]:
        """The function that sends a variant of a row of values by the script of the enum: its proof sees the types of this
        variant alone. Before it stands the one that sends a crowded variant's values."""
        if not self.is_apart(holder):
            return []
        given, value = self.whole_given(v)
        lines, told = self.send_values(v, holder, self.sent(v)), []
        if self.is_told(v, holder):
            name, sent, values = f"send_told_{v.owner}", v.data.to_send(), self.values(v.data)
            script = self.script_of(v, holder, [f"{x}.now" for x in values]).strip()
            parameters = "".join(f", {x}: &{f.type.rust()}" for f, x in zip(v.data.fields, values) if f.sent)
            told = [self.sender("Sends its values.", name, parameters, "", script, self.send_values(v, holder, values))]
            lines = [f"{name}({', '.join(['alloc', 'serializer', *(p for _, p in sent)])})"]
        script, requires = f"⟦<{self.whole} as Serialize>⟧.script whole.now", clause("requires", f"whole.now ≡ {value}")
        return [*told, self.sender("Sends that variant.", self.whole_name(v), f", whole: &{self.whole}{given}", requires, script, lines)]

    def sender(self, says: str, name: str, given: str, requires: str, script: str, lines: List[str]) -> str:
        """A function of these parameters and statements, which sends by this script."""
        bounds = angled(*self.item.lifetimes, "S: Serializer", *self.item.bounds("Serialize"))
        return (f"/// {says}\nfn {name}{bounds}(alloc: Global, serializer: &mut S{given}) -> Result<()>\n{requires}"
                + clause("ensures", f"Sends S.step S.refuses (S.seen serializer.old)\n({script})\nresult (S.seen serializer.new)")
                + "{\n" + "\n".join(lines) + "\n}\n")

    def is_told(self, v: Variant, holder: Holder) -> bool:
        """Whether the values are sent by a function whose contract tells the calls one by one: of a crowded variant proofs don't
        find them in the script of the enum."""
        told = holder.crowded and holder.count <= holder.sent_end(0) and not (holder.parted or v.beside)
        return told and bool(v.data.to_send())

    def script_of(self, v: Variant, holder: Holder, values: List[str]) -> str:
        """The calls by which a variant of these values is sent."""
        return holder.script(values)

    def whole_given(self, v: Variant) -> Tuple[str, str]:
        """The values of a variant as parameters of a function, and the variant of them."""
        places = v.data.places()
        given = "".join(f", {p}: &{f.type.rust()}" for p, f in zip(places, v.data.fields))
        return given, " ".join([f"{self.cases}.{in_term(v.name)}"] + [f"{in_term(p)}.now" for p in places])

    @staticmethod
    def is_apart(holder: Holder) -> bool:
        """Whether a variant is sent by a function of its own: each that has a row of values is."""
        return holder.many and holder.count > 0

    def send_values(self, v: Variant, holder: Holder, values: List[str]) -> List[str]:
        """The statements that send its values, which code calls so."""
        return holder.send(values)

    def whole_name(self, v: Variant) -> str:
        return f"send_whole_{v.owner}"

    def send_variant(self, v: Variant, holder: Holder) -> List[str]:
        """The statements that send a variant."""
        if not self.is_apart(holder):
            return self.send_values(v, holder, self.sent(v))
        return [f"{self.whole_name(v)}({', '.join(['alloc', 'serializer', 'self', *v.data.places()])})"]

    def names_list(self) -> List[str]:
        """The types that stand for the names of the variants, where they are used."""
        known = [list_impl(self.list, "The names of its variants.", [v.known for v, _ in self.readable()])]
        names, sent = sent_names(self.item)
        spread, same = self.item.spread, names == self.list
        return known * (self.reads or (spread and same)) + [
            list_impl(names, "The names of the variants that are sent.", sent)] * (spread and not same)

    def reader(self, v: Variant, holder: Holder) -> List[str]:
        """The function that reads a variant's fields, all values as one, where it needs one."""
        places, held = holder.data.places(), v.beside
        if held:
            made = held.data.made(held.name, places)
            making = f"{holder.maker_name()}({', '.join(holder.read_places())})" if holder.big else made
            whole = v.data.fields[0].type
            return holder.maker(whole, made, held.data.term) + holder.read_function(
                making, whole, [f"z.{in_term(f.name)}" for f in holder.fields])
        types = tuple(f.type for f in v.data.fields)
        values = [f"z.{i}" for i in range(len(types))] if len(types) > 1 else ["z"]
        result = Type("tuple", types) if len(types) != 1 else types[0]
        if holder.big:
            return []
        return holder.read_function(together(places), result, values)

    def maker(self, v: Variant, holder: Holder) -> List[str]:
        """The function that makes a variant of signed numbers, or of more values than a row has room for."""
        if not self.is_made(v, holder):
            return []
        made, term = self.made(v, v.data.places()), " ".join([f"{self.cases}.{in_term(v.name)}", "{}"])
        if holder.big:
            return holder.maker(self.item.itself(), made, lambda values: term.format(" ".join(values)))
        places = v.data.places()
        parameters = ", ".join(f"{p}: {f.type.rust()}" for p, f in zip(places, v.data.fields))
        return ["/// Its contract tells proofs what a variant of signed numbers holds.\n"
                f"fn {holder.maker_name()}{angled(*self.item.parameters)}({parameters}) -> {self.whole}\n"
                + clause("ensures", f"result ≡ {term.format(' '.join(map(in_term, places)))}") + f"{{\n{made}\n}}\n"]

    def is_made(self, v: Variant, holder: Holder) -> bool:
        """Whether a variant is made by a function of its own."""
        return v.signed() or (holder.big and not v.beside)

    def match(self, arms: List[str]) -> List[str]:
        return ["match self {"] + arms + ["}"]

    def absent(self) -> List[str]:
        """What is read where a field of this type is missing."""
        if self.item.absent_value:
            return made_absent(self.item)
        marked = next(v for v in self.item.variants if DEFAULT in v.head)
        return [ghost("is_absent", f"λ x. x ≡ {self.cases}.{in_term(marked.name)}"),
                function(ABSENT.format(self.whole), f"{self.item.name}::{marked.name}")]

    def serialize(self) -> List[str]:
        sent = [arm(self.made(v, v.data.places()), self.send_variant(v, h)) if v.sent else self.refusing(v)
                for v, h in self.variants]
        return [ghost("script", self.each(lambda v, h, x: self.script_of(v, h, x) if v.sent else self.unsent_script(v))),
                ghost("lawful", self.lawful()),
                function(SERIALIZE, *self.match(sent))]

    def entries_of(self, v: Variant, holder: Holder) -> Entries:
        """What a variant sends where its enum is flattened: an entry whose key is the variant's name."""
        names, sent = sent_names(self.item)
        announced, values, places = f"{names}, {sent.index(v.wire)}", self.values(v.data), v.data.places()
        if v.data.named:
            return entry_around(v.wire, announced, Holder("Struct", [v.wire], v.data, v.owner), values, places, holder)
        return entry_of(v.wire, announced, v.data.fields[0].type, values[0], places[0])

    def entries_senders(self) -> List[str]:
        """The functions that send variants of a row of values by the script of the enum, as `whole_sender` does."""
        return [self.entries_sender(v, holder) for v, holder in self.variants if self.is_apart(holder)]

    def entries_sender(self, v: Variant, holder: Holder) -> str:
        """The function that sends a variant so."""
        given, value = self.whole_given(v)
        bounds = angled(*self.item.lifetimes, FOLLOWING, "S: Serializer")
        return (f"/// Sends the entries of that variant, and what follows them.\nfn send_entries_of_{v.owner}{bounds}("
                f"whole: &{self.whole}{given}, rest: &Following, {AROUND}) -> {SENT}\n"
                + clause("requires", f"whole.now ≡ {value}")
                + clause("ensures", f"Sends S.step S.refuses (S.seen serializer.old)\n(⟦<{self.whole} as SendEntries>⟧.entries"
                         " whole.now (Following.script rest.now))\n(answer_of result error.new) (S.seen serializer.new)")
                + "{\n" + "\n".join(self.entries_of(v, holder).send) + "\n}\n")

    def entries(self) -> List[str]:
        """What it sends where it is flattened."""
        each = {v.name: self.entries_of(v, holder) for v, holder in self.variants}
        sent = {v.name: [f"send_entries_of_{v.owner}({', '.join(['self', *v.data.places()])}, rest, alloc, serializer, error)"]
                if self.is_apart(holder) else each[v.name].send for v, holder in self.variants}
        arms = [arm(self.made(v, v.data.places()), sent[v.name]) for v in self.item.variants]
        return [ghost("entries", self.each(lambda v, holder, x: f"λ rest. {each[v.name].script}")),
                ghost("fit", self.each(lambda v, holder, x: f"λ rest readable fit. {each[v.name].fit}")),
                function(SEND_ENTRIES, *self.match(arms))]

    def lawful(self) -> str:
        """The law that each value's script is lawful."""
        return self.each(lambda v, holder, x: "λ readable. " + (holder.lawful(x) if v.sent else "unsent_lawful _"))

    def refusing(self, v: Variant) -> str:
        """The arm that refuses a variant that isn't sent."""
        return arm(self.made(v, ["_"] * len(v.data.fields)), [f'refuse_unsent(alloc, serializer, "{self.unsent(v)}")'])

    def unsent_script(self, v: Variant) -> str:
        """What it is sent as: a stop."""
        return f"unsent_script {codes(self.unsent(v))}"

    def unsent(self, v: Variant) -> str:
        """What a variant that isn't sent is refused with."""
        return f"the enum variant {self.item.name}::{v.name} cannot be serialized"

    def refusal_of(self, holder: Holder) -> str:
        """What a variant refuses."""
        return holder.refusal()

    def refusals(self) -> str:
        """What each variant refuses, by name."""
        each = [f"({bare(name_term(v.known))}, {self.refusal_of(holder).strip()})" for v, holder in self.readable()]
        return "(variants (\n" + "\n∷ ".join(each + ["[]))"])

    def gives(self, holder: Holder, values: List[str]) -> str:
        """What a variant gives, whatever its name."""
        return holder.gives(values)

    def arm_lines(self, v: Variant, holder: Holder) -> List[str]:
        """The statements that read a variant."""
        return holder.read(self.making(v, holder))

    def dispatch(self, tag: str) -> List[str]:
        """The statements that read the variant that a tag names."""
        arms = [arm(f"Some({i})", self.arm_lines(v, holder)) for i, (v, holder) in enumerate(self.readable())]
        return [f"match variant_index({tag}, &{self.list}) {{", *arms, self.other_arm(tag), "}"]

    def other_arm(self, tag: str) -> str:
        """The arm of a tag that names no variant. What is read is dropped by a call, which is proved sooner than at the end."""
        return arm("_", [f"drop({self.source});", f"Err(no_such_variant(alloc, {tag}, &{self.list}))"])

    def variants_ghosts(self) -> List[str]:
        """What contracts see of the variants."""
        return [ghost("name", bare(self.name)),
                ghost("refusal", bare(self.refusals())),
                ghost("named", self.each(lambda v, holder, x: bare(name_term(v.known)))),
                ghost("held", self.each(lambda v, holder, x: self.gives(holder, x) if v.read else "λ v. ⊥"))]

    def variants_impl(self) -> List[str]:
        """The members of the impl that reads the variant that a tag names."""
        read = (f"fn read_variant<'n: 'de>(alloc: Global, tag: &str, variant: VariantAccess<'de, 'n>)"
                f" -> Result<{self.whole}>")
        return self.variants_ghosts() + [
            name_method("name", self.item.wire),
            f"fn names() -> &'static [&'static str] {{\n{self.list}::names()\n}}",
            self.looking() + function(read, *self.dispatch("tag"))]

    def looking(self) -> str:
        """What lets the proof of reading a variant look into rows: where one of signed numbers may lack a field."""
        return f"{ROWS_OPENED}\n" * any(v.signed() and any(f.missing for f in holder.reading.fields) for v, holder in self.readable())

    variants_trait = "Variants<'de>"
    source = "variant"

    def member(self, word: str) -> str:
        """A ghost member of that impl."""
        return f"⟦<{self.whole} as {self.variants_trait}>⟧.{word}"

    def deserialize(self) -> List[str]:
        if self.tags:
            return [ghost("refusal", f"enum_refusal {self.name} (λ tag. {self.member('refusal')} {self.meant})"),
                    ghost("gives", f"λ s y. EnumGivesBy (λ tag. {self.meant}) {self.name}\n({self.member('named')} y)\n({self.member('held')} y) s"),
                    function(DESERIALIZE.format(self.whole), f"read_enum_by::<TagsOf{pascal(self.item.owner)}, Self>(alloc, from)")]
        return [ghost("refusal", f"enum_refusal {self.name} {self.member('refusal')}"),
                ghost("gives", f"λ s y. EnumGives {self.name}\n({self.member('named')} y)\n({self.member('held')} y) s"),
                function(DESERIALIZE.format(self.whole), "read_enum(alloc, from)")]

    def making(self, v: Variant, holder: Holder) -> Callable[[List[str]], str]:
        """How the code makes a variant: by its own function, where it has one."""
        if self.is_made(v, holder):
            return lambda places: f"{holder.maker_name()}({', '.join(places)})"
        return lambda places: self.made(v, places)

    def round_trip(self) -> List[str]:
        looks = self.item.asked()
        known = [self.knowing(v) for v, _ in self.variants]
        return [ghost("exists", self.each(lambda v, holder, x: holder.exists(x)))] * looks + [
            function(KNOWN, *self.match(known) * looks),
            ghost("comes_back", self.back()),
            ghost("keeps", self.keeps())]

    def knowing(self, v: Variant) -> str:
        """The arm that tells that what a variant holds exists."""
        places = v.data.places()
        if self.is_known_apart(v):
            return arm(self.made(v, places), [f"known_{v.owner}({', '.join(['self', *places])})"])
        places = [p if f in v.data.asked() else "_" for f, p in zip(v.data.fields, places)]
        return arm(self.made(v, places), self.told_known(v))

    def told_known(self, v: Variant) -> List[str]:
        """The statements that tell so of each value of which it isn't known."""
        fields = v.beside.data.fields if v.beside else v.data.fields
        return [f"{leaf.lstrip('&')}.known();" for f, leaf in zip(fields, self.sent(v)) if not f.plain]

    def is_known_apart(self, v: Variant) -> bool:
        """Whether a function of its own tells so: its proof sees the types of this variant alone. Where an enum holds a hash map
        and nothing else, proofs find what that tells only where its variant is named."""
        if v.data.several:
            return any(f.type.is_deep() for f in v.data.asked())
        return len(self.item.variants) == 1 and any(f.type.is_hash_map() for f in v.data.asked())

    def known_apart(self, v: Variant) -> str:
        """That function."""
        given, value = self.whole_given(v)
        bounds = angled(LT_DE, *self.item.bounds(TRIP))
        return (f"/// Tells proofs that what that variant holds exists.\nfn known_{v.owner}{bounds}(whole: &{self.whole}{given})\n"
                + clause("requires", f"whole.now ≡ {value}")
                + clause("ensures", f"⟦<{self.whole} as {TRIP}>⟧.exists whole.now")
                + "{\n" + "\n".join(self.told_known(v)) + "\n}\n")

    def trip_functions(self) -> List[str]:
        """Those that the impl of RoundTrip calls."""
        return [self.known_apart(v) for v, _ in self.variants if self.is_known_apart(v)]

    def back(self) -> str:
        """The law that values come back."""
        return f"record {{\nof_value = {self.each(self.variant_back)};\n}}"

    def keeps(self) -> str:
        """The law that what is given without coercion is given with it."""
        return f"record {{\nof_origin = λ o people. {self.each(self.variant_keeps)};\n}}"

    def variant_back(self, v: Variant, holder: Holder, values: List[str]) -> str:
        """That a variant comes back."""
        law = f"{holder.word}_back{holder.back(values, self.sees(holder))}"
        return (f"λ real f. variant_back {self.own}.refusal {self.own}.gives {bracketed(law)}\nf ({opened('λ d. refl')})\n"
                f"({opened('λ d only. ' + elim([self.read(v, w) for w in self.item.variants]))})")

    def not_null(self) -> str:
        """The law that it isn't read of null."""
        return REFUSED_NULL

    def cbor_round_trip(self) -> List[str]:
        return [ghost("kept", self.kept())]

    def kept(self) -> str:
        """The law that values come back from CBOR."""
        return f"record {{\nof_value = {self.each(self.variant_kept)};\n}}"

    def variant_kept(self, v: Variant, holder: Holder, values: List[str]) -> str:
        """That a variant comes back from CBOR."""
        law = f"{holder.word}_kept{holder.kept(values, self.sees(holder))}"
        it = f"(given_as b {self.name} {name_term(v.wire)} d it)"
        read = elim([self.read(v, w, f"{it}.named", f"{it}.held") for w in self.item.variants])
        return (f"λ real. variant_comes_back {self.member('refusal')} {self.own}.gives {bracketed(law)}\n"
                f"({opened('λ v. refl')})\n({opened('λ b d only. ' + read)})")

    def read(self, sent: Variant, read: Variant, named: str = "it.0", held: str = "it.1") -> str:
        """That a variant that was read is equal to the one that was sent, by what is known of its
        name and of what it holds."""
        values = self.leaves(read, "y")
        pattern = self.case(read, "y") + " λ it. "
        if read is not sent:
            return pattern + f"other_variant {named} refl"
        if not values:
            return pattern + "refl"
        if self.alone(read):
            return pattern + f"only y1 {held}"
        return pattern + f"let same = only {together(values)} {held} in {all_hold(facts(len(values), 'same'))}"

    def alone(self, v: Variant) -> bool:
        """Whether its one value stands in no row."""
        return v.data.style == "Newtype"

    def variant_keeps(self, v: Variant, holder: Holder, values: List[str]) -> str:
        """That a variant is given with coercion where it is without."""
        law = f"{holder.word}_keeps{holder.keeps(self.sees(holder))}"
        own = f"{{own = {bracketed(holder.refusal())}}}"
        kept = f"meant_variant_kept {own} (λ tag. {self.meant})" if self.tags else f"variant_kept {own}"
        return (f"λ p.\nlet q = {kept} {self.name} {name_term(v.wire)}\n"
                f"{self.member('refusal')} ({opened('λ v. refl')}) {bracketed(law)}\n"
                f"o people {together(values)} p.free p.given in\nrecord {{ free = q.0; given = q.1 }}")

    @staticmethod
    def sees(holder: Holder) -> List[str]:
        """How each value is taken from all of them."""
        seen = " × ".join(f.type.seen() for f in holder.fields)
        return [f"(λ (z : {seen}). z{f'.{i}' * (holder.count > 1)})" for i in range(holder.count)]
