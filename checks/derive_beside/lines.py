"""The lines of docs/DIFFERENCES.md by which what tools/derive writes differs from Serde's derives: how each begins."""

ORDER = "the first bad entry in the order of the input is reported"
NAMES = "a key or a tag may be a text or a variant, in a buffer also bytes or an index"
CLOSED = ("with `tag` and `deny_unknown_fields`, variants without values accept any field, and texts don't list the"
          " tag")
UNIT_CONTENT = "the content of a variant without values must be `()` or `None`"
CONTENT_FIRST = "content before its tag is read from a buffer"
FLAT = "flattened fields are read last, from a buffer"
REFUSES = "a buffer refuses 128-bit numbers and variants of enums"
FORGETS = "a buffer turns tuples into sequences, structs into maps, and structs without data into `()`"
PLACES = "in a buffer a sequence is read as a struct or an enum, and with an internal tag everywhere"
ALIKE = ("a buffer accepts bytes as a text, a text of one character as a `char`, an empty map as `()`, and `None` as an"
         " untagged unit variant")
BOXED = "a missing field is `None` if its type is `Box<Option<T>>`, or `transparent` or `from` an `Option`"
PEOPLE = "a buffer is human readable"
OF_TEXT = "`tuple_variant` and `struct_variant` of a text say that a newtype was expected"
TEXTS = "errors of Serde's own have Serde's texts"

ALL = (ORDER, NAMES, CLOSED, UNIT_CONTENT, CONTENT_FIRST, FLAT, REFUSES, FORGETS, PLACES, ALIKE, BOXED, PEOPLE,
       OF_TEXT, TEXTS)
