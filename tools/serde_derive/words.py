"""The words of contracts and the items of code, and the lines that bring them."""
import re
from typing import Dict, Iterable, List, Set

from .cases import pascal
from .types import ADDRESSES, HOLDERS, LEAVES, RESERVED


def word_table(text: str) -> Dict[str, str]:
    """The module of each word, from lines of a module and its words."""
    table = {}
    for line in text.strip().split("\n"):
        module, *words = line.split()
        table.update({word: module for word in words})
    return table


STYLES = [f"{style}_{sort}" for style in ("unit", "newtype", "tuple", "struct") for sort in ("struct", "variant")]
STYLES[STYLES.index("struct_struct")] = "struct"
# leaves whose laws stand apart from those of the others
TEXTS = {"BoxedStr", "PathBuf", *ADDRESSES}
WORDS = word_table(f"""
std.specs.Prelude ◌≡◌ ◌∷◌ [] ℕ ℤ Bool Option None Some IsSome true false pos negsuc not nat_eq codes string_bytes refl ⊤
std.specs.Ordering int_eq
std.specs.Str bytes_eq
std.specs.Cmp nat_cmp_total int_cmp_total unsigned_ties nat_eq_equiv int_eq_equiv bool_eq_equiv eq_by_cmp_equiv
std.specs.Box boxed_str_bytes
std.specs.Path path_buf_bytes path_cmp_total
std.specs.Duration as_nanos
std.specs.Cmp.Lexicographic texts_ties
std.specs.String string_cmp_total string_eq_equiv
content_tree.specs.Values.Text static_name
content_tree.specs.Errors.Cause custom
content_ser.specs.Scripts.Script IsLawful
content_ser.specs.Scripts.Sends Sends
content_ser.specs.Scripts.Standard tuple_script element_first
content_ser.specs.Scripts.Arrays ArrayOf
content_ser.specs.Sending.Aside answer_of
content_ser.specs.Scripts.Own field_first tuple_field_first end_script {' '.join(f'{s}_script' for s in STYLES)}
content_ser.specs.Laws.StandardScripts leaf_lawful option_lawful seq_lawful map_lawful
content_ser.specs.Laws.StandardScripts tuple_lawful element_fits end_fits
content_ser.specs.Laws.Arrays array_lawful
content_ser.specs.Laws.Durations duration_lawful
content_ser.specs.Laws.Addresses ip_lawful ipv4_lawful ipv6_lawful
content_ser.specs.Laws.OwnScripts field_fits struct_end_fits tuple_field_fits tuple_end_fits
content_ser.specs.Laws.OwnScripts {' '.join(f'{s}_lawful' for s in STYLES)}
content_de.specs.Outcomes refusal_of taken IsTaken
content_de.specs.Requests.Leaves bool_from char_from unit_from text_from
content_de.specs.Reads.Standard HasContent
content_de.specs.Sources.Origin tree_under in_buffer buffering
content_de.specs.Reads.Tuples part_then end_of_parts PartThen NoPart
content_de.specs.Reads.Arrays array_refusal
content_de.specs.Accesses.ByName fields_left field_named without_field
content_de.specs.Accesses.Seq seq_view
content_de.specs.Reads.Read Reads
content_de.specs.Reads.Attempts IsTakenAs or_next
content_de.specs.Reads.ByName found_refusal FoundGives read_by_name no_others missing_field
content_de.specs.Reads.ByName ReadByName NoOthers
content_de.specs.Reads.Tagged tag_then TagThen tag_then_buffered TagThenBuffered
content_de.specs.Reads.Own enum_refusal EnumGives
content_de.specs.Reads.Own {' '.join(f'{s}_refusal {pascal(s)}Gives' for s in STYLES)}
serde_content.specs.Literals name row_then row_or_then RowThen RowOrThen others_left
serde_content.specs.Rests rest_then RestThen RestTried
serde_content.specs.Skips fields_less field_unless UnreadThen unsent_script
serde_content.specs.Entries flattened_unless tag_first
serde_content.specs.Aliases aliased_then AliasedThen
serde_content.specs.Tags meant meant_among EnumGivesBy TagThenBy TagThenBufferedBy
serde_content.specs.Variants index_among variants
serde_content.specs.RoundTrip ComesBack ComesBackAt CoercionKeeps
serde_content.specs.Laws.Leaves heedless_keeps natural_keeps integer_keeps
serde_content.specs.Laws.Leaves {' '.join(laws.back for name, laws in LEAVES.items() if laws.back and name not in TEXTS)}
serde_content.specs.Laws.Texts path_back boxed_text_back
serde_content.specs.Laws.Holders seen_back seen_keeps option_back option_keeps seq_back seq_keeps
serde_content.specs.Laws.Maps map_back map_keeps
serde_content.specs.Laws.Sets set_back set_keeps
serde_content.specs.Laws.Hashed hash_set_back hash_set_keeps hash_map_back hash_map_keeps no_entries_alike no_keys_alike
serde_content.specs.Laws.Spelled leaf_such
serde_content.specs.Laws.Series both_hold element_back tuple_back tuple_field_back tuple_struct_back parts_end
serde_content.specs.Laws.Series part_keeps tuple_keeps tuple_struct_keeps parts_end_keeps
serde_content.specs.Laws.Arrays array_back array_keeps array_counts
serde_content.specs.Laws.Records struct_back struct_keeps newtype_struct_back newtype_struct_keeps
serde_content.specs.Laws.Addresses {' '.join(f'{laws.back} {laws.keeps}' for laws in ADDRESSES.values())}
serde_content.specs.Laws.ByName by_name_back named_back named_or_back skipped_back closed_back
serde_content.specs.Laws.ByName by_name_keeps named_keeps named_or_keeps skipped_keeps closed_keeps
serde_content.specs.Laws.Skips field_unless_fits unsent_lawful keyed_back keyed_or_back keyed_unless_back keyed_skipped_back
serde_content.specs.Laws.Skips keyed_closed_back keyed_named none_alike no_items_alike
serde_content.specs.Laws.Tags meant_variant_kept
serde_content.specs.Laws.OwnFunctions false_alike true_alike equal_alike text_alike
serde_content.specs.Laws.Flattened flattened_script flattened_first flattened_fits flattened_end_fits
serde_content.specs.Laws.Flattened flattened_lawful flattened_refusal FlattenedGives flattened_end_back
serde_content.specs.Laws.Flattened flattened_named_back flattened_named_or_back flattened_back flattened_keeps
serde_content.specs.Laws.Entries flattened_unless_fits pairs_fit optional_fit
serde_content.specs.Laws.EntriesLeftOut entry_named_back entry_named_or_back entry_unless_back entries_end_back entries_named
serde_content.specs.Laws.Tagged tagged_script tagged_back tag_keeps tag_keeps_buffered content_back content_keeps
serde_content.specs.Laws.Untagged such_seen first_taken later_taken taken_by_one not_refused
serde_content.specs.Laws.Untagged unit_takes bool_takes number_takes char_takes text_takes seq_takes tuple_takes
serde_content.specs.Laws.Untagged map_takes struct_takes tuple_counts part_counts parts_end_counts
serde_content.specs.Laws.Variants variant_back other_variant variant_kept
serde_content.specs.Laws.Variants {' '.join(f'{s}_back {s}_keeps' for s in STYLES[1::2])}
content_cbor.specs.Decoded read_in flags_in
content_cbor.specs.Form form
content_cbor.specs.Typed.Kept FormComesBack RefusesNull
content_cbor.specs.Typed.Leaves {' '.join(laws.kept for name, laws in LEAVES.items() if laws.kept and name not in TEXTS)}
content_cbor.specs.Typed.Texts path_kept boxed_text_kept
content_cbor.specs.Typed.Sets set_kept hash_set_kept
content_cbor.specs.Typed.HashMaps hash_map_kept
content_cbor.specs.Typed.Leaves number_not_null bool_not_null text_not_null
content_cbor.specs.Typed.Holders seen_kept option_kept seq_kept seq_not_null
content_cbor.specs.Typed.Maps map_kept map_not_null
content_cbor.specs.Typed.Series element_kept tuple_kept tuple_field_kept tuple_struct_kept parts_end_kept
content_cbor.specs.Typed.Series tuple_not_null
content_cbor.specs.Typed.Arrays array_kept
content_cbor.specs.Typed.Records struct_kept newtype_struct_kept
content_cbor.specs.Typed.Addresses {' '.join(f'{laws.kept} {laws.not_null}' for laws in ADDRESSES.values())}
content_cbor.specs.Typed.ByName by_name_kept named_kept named_or_kept skipped_kept closed_kept
content_cbor.specs.Typed.Tagged tagged_kept content_kept
content_cbor.specs.Typed.Flattened flattened_named_kept flattened_named_or_kept flattened_end_kept flattened_kept
content_cbor.specs.Typed.Variants variant_comes_back given_as
content_cbor.specs.Typed.Variants {' '.join(f'{s}_kept' for s in STYLES[1::2])}
""")
# those of files with types that contain themselves
NESTED_WORDS = word_table("""
std.specs.Option is_none
content_de.specs.Outcomes refusal_then
content_de.specs.Requests.Leaves held_by
content_de.specs.Accesses.Seq seq_at
content_de.specs.Accesses.Map map_at
content_de.specs.Reads.Read Refusal Gives
content_de.specs.Reads.Standard held_refusal HeldGives seq_refusal SeqGives
content_de.specs.Reads.Maps map_refusal MapGives
serde_content.specs.Skips has_none
content_nested.specs.Nested Nested option_nested seq_nested map_nested told_by
content_nested.specs.Levels levels_of most_levels
content_nested.specs.Within refuses_all GivesNothing refusals_within gives_within
""")
# those of files with types that are converted, where that may fail
TRIED_WORDS = word_table("""
std.specs.Prelude Ok option_map
content_de.specs.Outcomes refusal_then
content_de.specs.Requests.Numbers number_from
content_de.specs.Reads.Read first_of
""")
# that of files with a trait that tells a script
TOLD, TOLD_WORDS = re.compile(r"^trait ToldOf", re.M), word_table("content_ser.specs.Scripts.Script Script")
NESTED_ITEMS = ("FieldsWithin Inner Levels NestedField NestedFieldOr NestedPart Nests PartsWithin ReadNested ReadWithin"
                " ReadsLevel ReadsNested ReadsWithin SendNested SendNestedField SendNestedPart SkipNested Steps StructWithin"
                " TaggedWithin Tells Told VariantsWithin").split()
# the hashed ones by their modules: in the contract of a function their bare names are those of Rust's types, with an allocator
ALIASES = {"kind": "content_tree.specs.Values.Ranges", "tree": "content_tree.specs.Values.Tree",
           "hash_map": "std.specs.HashMap", "hash_set": "std.specs.HashSet"}
SEEN = word_table("""
std.specs.declared.alloc.Global Global
std.specs.declared.string.String String
std.specs.declared.vec.Vec Vec
std.specs.declared.boxed.Box Box
std.specs.declared.collections.BTreeMap BTreeMap
std.specs.declared.collections.BTreeSet BTreeSet
std.specs.declared.collections.VecDeque VecDeque
std.specs.declared.hash.BuildHasherDefault BuildHasherDefault
std.specs.declared.hash.FoldHasher FoldHasher
std.specs.declared.boxed.BoxedStr BoxedStr
std.specs.declared.path.PathBuf PathBuf
std.specs.declared.time.Duration Duration
std.specs.declared.net.ip_addr.IpAddr IpAddr
std.specs.declared.net.ipv4_addr.Ipv4Addr Ipv4Addr
std.specs.declared.net.ipv6_addr.Ipv6Addr Ipv6Addr
std.specs.declared.rc.Rc Rc
std.specs.declared.sync.Arc Arc
""")
PLACES = "First Second Third Fourth".split()
CHOICES = [(f"first_of_{count}", f"OneOf{count.title()}") for count in ("two", "three", "four")]
USES = {
    "content_cbor": "CborRoundTrip NotNull",
    "serde_content": "CowStr Deserializer Error Result RoundTrip",
    "serde_content::de": "Deserialize FieldsByName VariantAccess attempt",
    "serde_content::derive_support":
        f"Absent Aliases DefaultOf NameAt Names NoName OfType OtherAt OwnNames {' '.join(sorted(one for _, one in CHOICES))}"
        " OthersRefused OthersSkipped PartsEnd ReadAliased ReadAliasedElse ReadField ReadFieldElse ReadFieldOr"
        " ReadFields ReadPart ReadParts ReadRest ReadStruct SendAll SendElement SendEnd SendEntries SendEntry SendEntryIf"
        " SendEntryInside SendEntryUnless SendField SendFieldIf SendFieldUnless SendInside SendOpen SendPart SendRest"
        " SendTag SendTagEntry Skip SkipIf TaggedVariants TryRest Variants"
        f" {' '.join(sorted(first for first, _ in CHOICES))} count_if count_unless default_text no_such_variant read_adjacent"
        " read_adjacent_by read_enum read_enum_by read_flattened read_struct read_tagged read_tagged_by"
        " refuse_unsent send_row variant_index",
    "serde_content::ser": "Call Parts Serialize Serializer",
    "std::alloc": "Global",
    "std::boxed": "BoxedStr",
    "std::collections": "BTreeMap BTreeSet HashMap HashSet VecDeque",
    "std::net": " ".join(ADDRESSES),
    "std::path": "PathBuf",
    "std::rc": "Rc",
    "std::sync": "Arc",
    "std::time": "Duration",
}
NO_PLACES = RESERVED | {"alloc", "fields", "serializer", "result", "row", "whole"} | {
    name for names in USES.values() for name in names.split() if name.islower()}
IN_TEXT = {"[]": r"\[\]", "form": r"\(form t\)", "custom": r"\(custom |option_map custom ", "Some": r"(?:\(|≡ )Some \(|\| Some w\d",
           "None": r"(?:≡|\[\]\)) None|\| None ↦",
           "true": r"(?:fits|λ b\.|≡) true", "false": r"(?:≡|λ n\.) false", "name": 'name "', "not": r"\(not ", "variants": r"variants \( \(name"}
METHODS = {"Parts": r"\.(?:with|around)\("}
# what no own type is called; `S` is the type of a serialiser, `Following` of a row, and contracts name the two traits
TAKEN = {name for names in USES.values() for name in names.split()} | set(HOLDERS) | {
    "String", "Ok", "Err", "S", "Following", "PartialEq", "Ord"}
# what a module names its crates by
CRATES = {path.split("::")[0] for path in USES} | {module.split(".")[0] for module in WORDS.values()} | {"core"}


WORD = re.compile(r"[^\W\d]\w*|[^\w\s]")


def words_in(texts: Iterable[str]) -> Set[str]:
    """The words and signs of texts; a word of IN_TEXT counts where what is said there is found in one."""
    used: Set[str] = set()
    spelled: Set[str] = set()
    for text in texts:
        used.update(WORD.findall(text))
        if len(spelled) < len(IN_TEXT):
            line = " ".join(text.split())
            spelled.update(word for word, said in IN_TEXT.items() if re.search(said, line))
    return used | {f"{word} in text" for word in spelled}


def words_of(used: Set[str], table: Dict[str, str]) -> List[str]:
    """The lines that bring the words that are used, in the table's order."""
    by_module: Dict[str, List[str]] = {}
    for word, module in table.items():
        if f"{word} in text" in used if word in IN_TEXT else word.strip("◌") in used:
            by_module.setdefault(module, []).append(word)
    lines = []
    for module, words in by_module.items():
        lines.append(f"ghost use Rattle.{module}.{{{words[0]}}};")
        for word in words[1:]:
            longer = lines[-1].replace("};", f", {word}}};")
            if len(longer) <= 100:
                lines[-1] = longer
            else:
                lines.append(f"ghost use Rattle.{module}.{{{word}}};")
    return lines
