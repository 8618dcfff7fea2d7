"""The impls of types that contain themselves: they are sent by a fold, and read level by level."""
from typing import Callable, Iterator, List

from .declarations import Field, Item, Variant
from .enums import EnumWriter
from .holder import Holder
from .literals import name_method, name_term
from .nested_holders import BELOW, Levels, NestedHolder, NestedTaggedHolder, PlainHolder, PlainTaggedHolder, path_of, struct_within
from .structs import StructWriter
from .tagged import TaggedWriter
from .text import DESERIALIZE, SERIALIZE, arm, bare, clause, elim, function, ghost, together
from .types import Type, angled, in_term, snake

SENT = "serde_content::ser::Sent"
ASIDE = "alloc: Global, serializer: &mut S, error: &mut serde_content::Error"
SEND_NESTED = f"fn send_nested<S: Serializer>(&self, {ASIDE}) -> {SENT}"


class NestedWriter:
    """What the impls of structs and enums that contain themselves have in common."""

    item: Item
    whole: str

    def settle(self, item: Item) -> None:
        """Knows the cycle of an item."""
        self.levels, self.alone = Levels(item.cycle), len(item.cycle) == 1
        self.place = [one.name for one in item.cycle].index(item.name)

    @staticmethod
    def of(item: Item) -> "NestedWriter":
        """What writes an item of the cycle."""
        if not item.variants:
            return NestedStructWriter(item)
        return NestedTaggedWriter(item) if "tag" in item.serde else NestedEnumWriter(item)

    def holders(self) -> Iterator[Holder]:
        """What its values are held by."""

    def step(self) -> str:
        """What a level `l` is sent by, from what the values in it are sent by."""

    def told(self) -> str:
        """The script of a level `l`, by those of the values in it."""

    def same(self) -> str:
        """That both are the same of the level of a value `y`."""

    def level_refusal(self) -> str:
        """What is refused on a level."""

    def level_gives(self) -> str:
        """What is given on a level."""

    def inner_reader(self) -> str:
        """The impl that reads what is in it with the levels that are left."""

    def read_lines(self) -> List[str]:
        """The statements that read it with these levels."""

    def out(self, value: str) -> str:
        """One level of a value."""
        return f"out-{self.item.name} {value}"

    def set_readers(self, sent_as: str, read_as: str) -> None:
        """Says whom the words of contracts are for."""
        for holder in self.holders():
            if isinstance(holder, NestedHolder):
                holder.sent_as, holder.read_as = sent_as, read_as

    def sender(self, holder: Holder, name: str) -> List[str]:
        """The function that sends the values of a struct or a variant: it doesn't know that they lead back."""
        fields, names = holder.fields, [f"x{i + 1}" for i in range(holder.count)]
        types = [holder.inner(i) if isinstance(holder, NestedHolder) else f.type.rust() for i, f in enumerate(fields)]
        given = "".join(f", {x}: &{t}" for x, t in zip(names, types))
        self.set_readers("parameter", "level")
        script = holder.script([f"{x}.now" for x in names])
        self.set_readers("fold", "level")
        if holder.many:
            body = [*holder.send(names)[:-1], "content_nested::send_row_aside(&row, alloc, serializer, error)"]
        else:
            shown = f"&Inner({names[0]})" if fields[0].type.leads_back() else names[0]
            body = [f"content_nested::send_around({holder.call}, {shown}, alloc, serializer, error)"]
        bounds = angled("S: Serializer", *(holder.given_types() if isinstance(holder, NestedHolder) else []))
        return [f"/// Sends its values.\nfn {name}{bounds}({ASIDE}{given}) -> {SENT}\n"
                + clause("ensures", f"Sends S.step S.refuses (S.seen serializer.old)\n({script})\n(answer_of result error.new)"
                         " (S.seen serializer.new)")
                + "{\n" + "\n".join(body) + "\n}\n"]

    def reader_within(self, holder: NestedHolder) -> List[str]:
        """The function that reads fields with the levels that are left, all values as one."""
        if not holder.data.named:
            return []
        count, names = holder.count, [f"x{i + 1}" for i in range(holder.count)]
        values = [f"z.{i}" for i in range(count)] if count > 1 else ["z"]
        types = tuple(f.type for f in holder.fields)
        result = Type("tuple", types).rust() if count > 1 else types[0].rust()
        self.set_readers("fold", "levels.now")
        refusal, gives = holder.refusal_row(), holder.gives_row(values)
        self.set_readers("fold", "level")
        body = "\n".join(holder.taken_within("fields", names) + [f"Ok({together(names)})"])
        return [f"/// Reads the fields, in any order.\nfn {holder.reader}<'de, 'n: 'de, Below>(levels: &{BELOW}, alloc: Global,"
                f" fields: FieldsByName<'de, 'n>) -> Result<{result}>\n{self.bounds()}"
                + clause("ensures", f"Reads ({refusal}\n(fields_left fields.entry))\n(λ z. {gives}\n(fields_left fields.entry))"
                         " result")
                + f"{{\n{body}\n}}\n"]

    def attribute(self, way: str) -> str:
        """The name of the cycle of functions that call each other, where it is more than one."""
        return "" if self.alone else f"#[cycle({way}_{snake(self.item.cycle[0].name)})]\n"

    def bounds(self) -> str:
        """That each type of the cycle is read with the levels that are left."""
        return "where\n" + "".join(f"{BELOW}: ReadWithin<'de, {one.name}>,\n" for one in self.item.cycle)

    def steps(self) -> str:
        """What the values of each type of the cycle are sent by, from what those in them are sent by."""
        return " ".join(f"⟦<{one.whole} as Steps>⟧.step" for one in map(self.of, self.item.cycle))

    def folded(self) -> str:
        """What a value is sent by, but for the value."""
        return f"fold-{self.whole} {' '.join(['Nested'] * len(self.item.cycle))} {self.steps()}"

    def open(self, inside: str) -> str:
        """One level of a value, with these in the place of the values in it."""
        return f"{self.item.cases}.{self.item.name}-F {inside}"

    def step_members(self) -> List[str]:
        """The members that say what a level is sent by."""
        return [ghost("Filled", self.open("Nested")), ghost("step", f"λ l. {self.step()}")]

    def sent_members(self) -> List[str]:
        """The member that tells what a value is sent by."""
        return [ghost("Layer", "Nested"), ghost("layer", f"λ y. {self.folded()} y"), ghost("nested", "λ n. n"),
                ghost("is_empty", "λ n. false")]

    def told_members(self) -> List[str]:
        """The members that say by which script."""
        return [ghost("Level", self.open(in_term(self.whole))), ghost("level", f"λ y. {self.out('y')}"),
                ghost("told", f"λ l. {self.told()}")]

    def tells_members(self) -> List[str]:
        """The law that it is this one."""
        return [ghost("is_told", f"λ y. told_by (fold_out-{self.whole} Nested {self.steps()} y)\n({self.same()})")]

    def is_same(self, level: str) -> str:
        """That a level is sent by the script that it tells."""
        step = f"⟦<{self.whole} as Steps>⟧.step (map-{self.whole} {in_term(self.whole)} Nested ({self.folded()}) {level})"
        return f"({step}).script ≡\n⟦<{self.whole} as Told>⟧.told {level}"

    def same_at(self, fields: List[Field], values: List[str], level: Callable[[List[str]], str]) -> str:
        """The proof of that for the level of these values: by cases on each Option that leads back, as no other is seen to
        be the same before it is known whether something is there."""
        at = next((i for i, f in enumerate(fields) if f.type.leads_back() and f.type.name == "Option"
                   and values[i] != "None" and not values[i].startswith("(Some ")), None)
        if at is None:
            return "refl"

        def with_this(value: str) -> List[str]:
            return [*values[:at], value, *values[at + 1:]]

        cases = elim([f"None ↦ {self.same_at(fields, with_this('None'), level)}",
                      f"Some w{at + 1} ↦ {self.same_at(fields, with_this(f'(Some w{at + 1})'), level)}"]).removeprefix("elim ")
        return f"elim {values[at]} as (λ o. {self.is_same(f'({level(with_this(chr(111)))})')}) {cases}"

    def serialize(self) -> List[str]:
        own = f"⟦<{self.whole} as Nests>⟧.layer y"
        return [ghost("script", f"λ y. ({own}).script"), ghost("lawful", f"λ y readable. ({own}).lawful readable"),
                function(SERIALIZE, "content_nested::send_nested(self, alloc, serializer)"),
                function(SEND_NESTED.replace("send_nested", "serialize_aside"), "self.send_nested(alloc, serializer, error)")]

    def level_members(self) -> List[str]:
        """The members that tell what one level reads, by what the next does."""
        return [ghost("level_refusal", f"λ r. {self.level_refusal()}"), ghost("level_gives", f"λ g. {self.level_gives()}")]

    def read_members(self) -> List[str]:
        """The members that tell what is read with so many levels."""
        if self.alone:
            of = f"⟦<{self.whole} as ReadsLevel<'de>>⟧"
            return [ghost("refusal_in", f"λ n. refusals_within {{R = Refusal}} refuses_all {of}.level_refusal n"),
                    ghost("gives_in", f"λ n. gives_within {{G = Gives {in_term(self.whole)}}} GivesNothing {of}.level_gives n")]
        each, count = [self.of(one) for one in self.item.cycle], len(self.item.cycle)
        ends = [("refusals_within", "{R = " + " × ".join(["Refusal"] * count) + "}", "refuses_all",
                 [one.level_refusal() for one in each], "r"),
                ("gives_within", "{G = " + " × ".join(f"Gives {in_term(one.whole)}" for one in each) + "}", "GivesNothing",
                 [one.level_gives() for one in each], "g")]
        terms = []
        for word, of, end, steps, letter in ends:
            step = "(" + ",\n".join(f"({one})" for one in steps) + ")"
            whole = f"{word} {of} {together([end] * count)} (λ {letter}. {step}) n"
            terms.append(f"λ n. {path_of(f'({whole})', self.place, count)}")
        return [ghost("refusal_in", terms[0]), ghost("gives_in", terms[1])]

    def reading(self) -> List[str]:
        """The impls that read a value with the levels that are left."""
        of, whole = f"⟦<{self.whole} as ReadsNested<'de>>⟧", self.whole
        read = f"fn read_within<'n: 'de>(&self, alloc: Global, from: Deserializer<'de, 'n>) -> Result<{whole}>"
        within = function(read, "match self {", arm("Levels::Out", ["Err(content_nested::too_deep(alloc))"]),
                          arm("Levels::More(levels)", self.read_lines()), "}")
        return [
            f"impl<'de> ReadsWithin<'de, {whole}> for Levels {{\n" + "\n\n".join([
                ghost("refusal", f"λ l. {of}.refusal_in (levels_of l)"),
                ghost("gives", f"λ l. {of}.gives_in (levels_of l)")]) + "\n}\n",
            f"impl<'de, Below: ReadsWithin<'de, {whole}>> ReadsWithin<'de, {whole}> for {BELOW} {{\n" + "\n\n".join([
                ghost("refusal", "λ l. Below.refusal l.value"), ghost("gives", "λ l. Below.gives l.value")]) + "\n}\n",
            f"impl<'de, Below: ReadWithin<'de, {whole}>> ReadWithin<'de, {whole}> for {BELOW} {{\n"
            + function(read, "Below::read_within(&**self, alloc, from)") + "\n}\n",
            *filter(None, [self.inner_reader()]),
            f"impl<'de> ReadWithin<'de, {whole}> for Levels {{\n{self.attribute('read')}{within}\n}}\n",
            f"impl<'de> ReadNested<'de> for {whole} {{\n" + function(
                f"fn read_levels<'n: 'de>(levels: &Levels, alloc: Global, from: Deserializer<'de, 'n>) -> Result<{whole}>",
                "levels.read_within(alloc, from)") + "\n}\n"]

    def deserialize(self) -> List[str]:
        of = f"⟦<{self.whole} as ReadsNested<'de>>⟧"
        return [ghost("refusal", f"{of}.refusal_in most_levels"), ghost("gives", f"{of}.gives_in most_levels"),
                function(DESERIALIZE.format(self.whole), "content_nested::read_nested(alloc, from)")]


class NestedEnumWriter(NestedWriter, EnumWriter):
    """The impls of an enum that contains itself, and is tagged externally."""

    def __init__(self, item: Item):
        EnumWriter.__init__(self, item)
        self.settle(item)
        self.variants = [(v, self.variant_holder(v, "Variant", [item.wire, i, v.wire], v.data, v.owner))
                         for i, v in enumerate(item.variants)]

    def variant_holder(self, v: Variant, *given: object) -> Holder:
        """What a variant holds."""
        return NestedHolder.of(self.levels, *given) if self.leads_back(v) else PlainHolder(*given)

    @staticmethod
    def leads_back(v: Variant) -> bool:
        return any(f.type.leads_back() for f in v.data.fields)

    def holders(self) -> Iterator[Holder]:
        return (holder for _, holder in self.variants)

    def case(self, v: Variant, letter: str = "x") -> str:
        names = [v.name for one in self.item.cycle for v in one.variants]
        of = f"{self.item.name}::" if names.count(v.name) > 1 else ""
        return " ".join([f"{self.cases}.{of}{in_term(v.name)}"] + self.values(v.data, letter)) + " ↦"

    def functions(self) -> List[str]:
        texts = []
        for v, holder in self.variants:
            texts += self.maker(v, holder) * self.reads + holder.names_list()
            if self.sends:
                texts += holder.sent_types()
                texts += self.sender(holder, self.whole_name(v)) if self.has_sender(v) else []
            if self.reads:
                texts += holder.row_types()
                texts += self.reader_within(holder) if self.leads_back(v) else self.reader(v, holder)
        return texts + self.names_list()

    def has_sender(self, v: Variant) -> bool:
        """Whether a function sends it: it makes more than one call."""
        return bool(v.data.fields)

    def sent_arm(self, v: Variant, holder: Holder) -> str:
        """The arm that sends a variant."""
        names = self.values(v.data)
        if not self.has_sender(v):
            return arm(self.made(v, []), [f"content_nested::send_only({holder.call}, serializer, error)"])
        sent = self.sent(v) if v.beside else names
        return arm(self.made(v, names), [f"{self.whole_name(v)}({', '.join(['alloc', 'serializer', 'error', *sent])})"])

    def step(self) -> str:
        return "elim l " + elim([f"{self.case(v)} record {{\nscript = {holder.script(self.leaves(v))};\n"
                                 f"lawful = λ readable. {holder.lawful(self.leaves(v))};\n}}"
                                 for v, holder in self.variants]).removeprefix("elim ")

    def told(self) -> str:
        self.set_readers("told", "level")
        scripts = elim([f"{self.case(v)} {holder.script(self.leaves(v))}" for v, holder in self.variants])
        self.set_readers("fold", "level")
        return f"elim l {scripts.removeprefix('elim ')}"

    def same(self) -> str:
        cases = []
        for v, _ in self.variants:
            of = self.case(v).split()[0]
            cases.append(f"{self.case(v)} " + self.same_at(
                v.data.fields, self.values(v.data), lambda values, of=of: " ".join([of, *values])))
        return f"elim ({self.out('y')}) as (λ l. {self.is_same('l')}) {elim(cases).removeprefix('elim ')}"

    def maker(self, v: Variant, holder: Holder) -> List[str]:
        if not v.signed():
            return []
        names = self.values(v.data)
        parameters = ", ".join(f"{x}: {f.type.rust()}" for x, f in zip(names, v.data.fields))
        return ["/// Its contract tells proofs what a variant of signed numbers holds.\n"
                f"fn {holder.maker_name()}({parameters}) -> {self.whole}\n"
                + clause("ensures", f"{self.out('result')} ≡ {self.case(v)[:-2]}") + f"{{\n{self.made(v, names)}\n}}\n"]

    def is_made(self, v: Variant, holder: Holder) -> bool:
        return v.signed()

    def arm_within(self, v: Variant, holder: Holder) -> List[str]:
        """The statements that read a variant with the levels that are left."""
        names, make = self.values(v.data), self.making(v, holder)
        if not self.leads_back(v):
            return holder.read(make)
        if v.data.style == "Newtype":
            of = v.data.fields[0].type.rust()
            return [f"Ok({make([f'content_nested::newtype_within::<{of}, {BELOW}>(levels, alloc, variant)?'])})"]
        if v.data.named:
            return [f"let fields = variant.struct_variant(alloc, {holder.list}::names())?.by_name();",
                    f"let {together(names)} = {holder.reader}(levels, alloc, fields)?;", f"Ok({make(names)})"]
        return [f"let parts = variant.tuple_variant(alloc, {holder.count})?;", *holder.taken_within("parts", names),
                f"Ok({make(names)})"]

    def sending(self) -> List[str]:
        """The members of the impl that sends a value."""
        arms = [self.sent_arm(v, holder) for v, holder in self.variants]
        return [self.attribute("send") + function(SEND_NESTED, "content_nested::tell(self);", *self.match(arms))]

    def by_out(self, term: str) -> str:
        """A term by cases on a value."""
        return f"elim ({self.out('y')}) {term.removeprefix('elim ')}"

    def named(self) -> str:
        """The name of a value's variant."""
        return self.by_out(self.each(lambda v, holder, x: bare(name_term(v.known))))

    def held(self) -> str:
        """What a value's variant gives."""
        return self.by_out(self.each(lambda v, holder, x: self.gives(holder, x)))

    def level_refusal(self) -> str:
        return f"enum_refusal {self.name} {self.refusals()}"

    def level_gives(self) -> str:
        return f"λ s y. EnumGives {self.name}\n({self.named()})\n({self.held()}) s"

    def read_lines(self) -> List[str]:
        return ["content_nested::read_enum_within(levels, alloc, from)"]

    within = ("VariantsWithin", "variant: VariantAccess")

    def name_members(self) -> List[str]:
        """The members that hand out names."""
        return [name_method("name", self.item.wire), f"fn names() -> &'static [&'static str] {{\n{self.list}::names()\n}}"]

    def name_ghosts(self) -> List[str]:
        """The names that contracts see."""
        return [ghost("name", bare(self.name))]

    def inner_reader(self) -> str:
        self.set_readers("fold", "l")
        ghosts = [*self.name_ghosts(), ghost("refusal", f"λ l. {bare(self.refusals())}"),
                  ghost("named", f"λ y. {self.named()}"), ghost("held", f"λ l y. {self.held()}")]
        self.set_readers("fold", "level")
        trait, source = self.within
        arms = [arm(f"Some({i})", self.arm_within(v, holder)) for i, (v, holder) in enumerate(self.readable())]
        read = function(f"fn read_variant<'n: 'de>(levels: &{BELOW}, alloc: Global, tag: &str, {source}<'de, 'n>)"
                        f" -> Result<{self.whole}>", f"match variant_index(tag, &{self.list}) {{", *arms,
                        self.other_arm("tag"), "}")
        members = [*ghosts, *self.name_members(), self.looking() + read]
        return (f"impl<'de, Below> {trait}<'de, {BELOW}> for {self.whole}\n{self.bounds()}{{\n"
                + "\n\n".join(members) + "\n}\n")


class NestedTaggedWriter(NestedEnumWriter, TaggedWriter):
    """The impls of an enum that contains itself, and is tagged internally."""

    within = ("TaggedWithin", "fields: FieldsByName")

    def __init__(self, item: Item):
        TaggedWriter.__init__(self, item)
        self.settle(item)
        self.variants = [(v, self.variant_holder(v, item, self.tag, v, holder.fields)) for v, holder in self.variants]

    def variant_holder(self, v: Variant, *given: object) -> Holder:
        return NestedTaggedHolder.of(self.levels, *given) if self.leads_back(v) else PlainTaggedHolder(*given)

    def has_sender(self, v: Variant) -> bool:
        return True

    def name_members(self) -> List[str]:
        return [name_method("name", self.item.wire), name_method("tag", self.tag)]

    def name_ghosts(self) -> List[str]:
        return [ghost("name", bare(self.name)), ghost("tag_name", bare(name_term(self.tag)))]

    def arm_within(self, v: Variant, holder: Holder) -> List[str]:
        if not self.leads_back(v):
            return self.arm_lines(v, holder)
        names = self.values(v.data)
        return [f"let {together(names)} = {holder.reader}(levels, alloc, fields)?;", f"Ok({self.making(v, holder)(names)})"]

    def level_refusal(self) -> str:
        ending = "_buffered" * bool(self.buffered)
        return f"struct_refusal {self.name} (read_by_name (tag_then{ending} {name_term(self.tag)}\n{self.refusals()}))"

    def level_gives(self) -> str:
        fields = f"TagThen{self.buffered.title()} {name_term(self.tag)}\n({self.named()})\n({self.held()})"
        return f"λ s y. StructGives {self.name} (ReadByName\n({fields})) s"

    def read_lines(self) -> List[str]:
        return [f"content_nested::read_{'tagged' if self.buffered else 'adjacent'}_within(levels, alloc, from)"]


class NestedStructWriter(NestedWriter, StructWriter):
    """The impls of a struct that contains itself."""

    def __init__(self, item: Item):
        StructWriter.__init__(self, item)
        self.settle(item)
        self.whole, self.data = item.name, item.data
        self.holder = NestedHolder.of(self.levels, "Struct", [item.wire], item.data, item.owner)

    def holders(self) -> Iterator[Holder]:
        yield self.holder

    def fields_of(self, value: str) -> List[str]:
        """The fields of a value, or of one level of it."""
        return [f"{value}.{in_term(f.name)}" for f in self.data.fields]

    def functions(self) -> List[str]:
        sent = self.holder.sent_types() + self.sender(self.holder, self.sender_name())
        read = self.holder.row_types() + self.reader_within(self.holder)
        return self.holder.names_list() + sent * self.sends + read * self.reads

    def sender_name(self) -> str:
        return f"send_whole_{self.item.owner}"

    def step(self) -> str:
        values = self.fields_of("l")
        return f"record {{\nscript = {self.holder.script(values)};\nlawful = λ readable. {self.holder.lawful(values)};\n}}"

    def told(self) -> str:
        self.set_readers("told", "level")
        script = self.holder.script(self.fields_of("l"))
        self.set_readers("fold", "level")
        return script

    def same(self) -> str:
        names = [in_term(f.name) for f in self.data.fields]
        return self.same_at(self.data.fields, self.fields_of(f"({self.out('y')})"), lambda values: (
            "record {\n" + "".join(f"{name} = {value};\n" for name, value in zip(names, values)) + "}"))

    def sending(self) -> List[str]:
        """The members of the impl that sends a value."""
        values = ", ".join(f"&self.{f.name}" for f in self.data.fields)
        return [self.attribute("send") + function(
            SEND_NESTED, "content_nested::tell(self);", f"{self.sender_name()}(alloc, serializer, error, {values})")]

    def level_refusal(self) -> str:
        return self.holder.refusal()

    def level_gives(self) -> str:
        return f"λ s y. {self.holder.gives(self.fields_of(f'({self.out(chr(121))})'))} s"

    def read_lines(self) -> List[str]:
        holder, names = self.holder, [f"x{i + 1}" for i in range(len(self.data.fields))]
        if self.data.named:
            return [f"content_nested::read_struct_within::<{holder.list}, Box<Levels>, {self.whole}>(levels, alloc, from)"]
        if self.data.style == "Newtype":
            return [f"let inside = from.deserialize_newtype_struct(alloc, {holder.name})?;",
                    f"let x1 = ReadWithin::<'de, {holder.fields[0].type.rust()}>::read_within(levels, alloc, inside)?;",
                    f"Ok({self.data.made(self.whole, names)})"]
        return [f"let parts = from.deserialize_tuple_struct(alloc, {holder.name}, {holder.count})?;",
                *holder.taken_within("parts", names), f"Ok({self.data.made(self.whole, names)})"]

    def inner_reader(self) -> str:
        if not self.data.named:
            return ""
        return struct_within(self.holder, self.whole, self.item.wire, self.fields_of(f"({self.out('z')})"), self.bounds())
