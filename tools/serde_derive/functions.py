"""Functions of the user's in a file of declarations, as far as attributes name them: what one gives whose body is one
value, and which value one tests for."""
import re
from dataclasses import dataclass, field
from typing import Dict, Iterator, List, Optional, Set, Tuple

from .declarations import Test, Value, absent_of
from .literals import name_call, name_term
from .named import has_default
from .tokens import ROOTS, Token, shown, text_of
from .types import DEFAULTS, NUMBERS, SIGNED, Type

# what makes the value that `Absent` gives, of any type, and of one that is named
EMPTIES = r"(?:(?:std|core)::default::)?Default::default\(\)|(?:\w+::)*{}::default\(\)"
OF_STD = r"(?:(?:::)?(?:std|core|alloc)::(?:\w+::)+)?"  # may stand before the name of a type of std's
MADE_EMPTY = {"Option": r"|None", "Vec": rf"|vec!\[\]|{OF_STD}Vec::new\(\)", "Duration": r"|(?:\w+::)*Duration::ZERO",
              **{name: rf"|{OF_STD}{name}::new\(\)" for name in (
                  "String", "PathBuf", "BTreeMap", "BTreeSet", "HashMap", "HashSet", "VecDeque")}}
# the nanoseconds of each unit of which a Duration is made
UNITS = {"secs": 1_000_000_000, "millis": 1_000_000, "micros": 1_000, "nanos": 1}
ONE_VALUE = "such as `8080`, `\"text\".to_owned()`, `Vec::new()` or a variant of an enum of this file"
MOST_NAMED = 16  # how often a constant may name another
MOST_DIGITS = 100  # of a number, with the signs between them
IS_ZERO = re.compile(r"(?:\w+::)*Duration::is_zero")
NOT = re.compile(r"(?:(?:std|core)::ops::)?Not::not|bool::not")
CASES = "\x04{}\x05"  # stands for what contracts call the cases of an enum, which are named later


# the values that `Absent` gives
EMPTY = {name: Value(fact, "Ok(Absent::absent(alloc))") for name, fact in DEFAULTS.items()}


@dataclass
class Function:
    """A function: the type whose impl it is in, the names of its parameters, and the tokens of its body."""

    owner: str
    parameters: List[str]
    body: List[Token]

    def has(self) -> str:
        """What it has that gives no value that is known, as a message tells that."""
        return "parameters" if self.parameters else f"`{shown(self.body)}`"


@dataclass
class Functions:
    """The functions and constants of a file by their paths, the types of the values by place of the enums' variants, and the
    paths that the file uses."""

    named: Dict[str, Function] = field(default_factory=dict)
    constants: Dict[str, List[Token]] = field(default_factory=dict)
    derived: Set[str] = field(default_factory=set)  # the types that derive Default
    modules: Dict[str, str] = field(default_factory=dict)  # the module of an impl or a module, with `::` at its end
    variants: Dict[str, Dict[str, List[Type]]] = field(default_factory=dict)
    uses: Dict[str, List[str]] = field(default_factory=dict)
    used: Set[str] = field(default_factory=set)  # the functions that give a value that is known, where one was asked for

    def collect(self, tokens: List[Token], pairs: Dict[int, int], place: int, end: int, owner: str = "", module: str = "") -> None:
        """Takes in what stands between two places, in an impl or a module."""
        self.modules[owner[:-2]] = module
        while place < end:
            word, after = tokens[place].text, tokens[min(place + 1, end - 1)]
            inside = self.to(tokens, pairs, place + 1, end, "{;" if word != "const" else "=;{")
            if word == "fn" and after.sort == "name" and inside < end:
                self.function(tokens, pairs, place, inside, owner)
            elif word in ("impl", "mod") and inside < end and tokens[inside].text == "{":
                names = [token.text for token in tokens[place:inside] if token.sort == "name"]
                inner = f"{owner}{names[-1]}::"
                self.collect(tokens, pairs, inside + 1, pairs[inside], inner, inner if word == "mod" else module)
            elif word == "const" and inside < end and tokens[inside].text == "=":
                last = self.to(tokens, pairs, inside + 1, end, ";")
                twice = owner + after.text in self.constants
                self.constants[owner + after.text] = tokens[inside + 1:last] * (not twice)
                inside = last
            else:
                place = pairs.get(place, place) + 1
                continue
            place = pairs.get(inside, inside) + 1

    @staticmethod
    def to(tokens: List[Token], pairs: Dict[int, int], place: int, end: int, signs: str) -> int:
        """The place of the next of these signs, outside of brackets that don't begin with one."""
        while place < end and tokens[place].text not in signs:
            place = pairs.get(place, place) + 1
        return place

    def function(self, tokens: List[Token], pairs: Dict[int, int], place: int, body: int, owner: str) -> None:
        """Takes in a function."""
        opened = self.to(tokens, pairs, place, body, "(")
        if opened < body and tokens[body].text == "{":
            parameters = [token.text for token, after in zip(tokens[opened:pairs[opened]], tokens[opened + 1:pairs[opened] + 1])
                          if token.sort == "name" and (after.text == ":" or (token.text == "self" and after.text in ",)"))]
            path = owner + tokens[place + 1].text
            twice = path in self.named
            self.named[path] = Function(owner[:-2], parameters, returned(tokens[body + 1:pairs[body]]) * (not twice))

    def given(self, path: str, t: Type) -> Optional[Value]:
        """What a function gives of this type, where its body is one value; one that has two bodies gives none."""
        found = self.named.get(path)
        if not found:
            return self.empty(f"{path}()", t)
        value = self.value(found.body, t, found.owner) if not found.parameters else None
        self.used |= {path} if value else set()
        return value

    def whole(self, path: str, owner: str) -> str:
        """The whole path of what is called so in an impl or a module."""
        return self.modules.get(owner, "") + path

    @staticmethod
    def empty(text: str, t: Type) -> Optional[Value]:
        """The value that `Absent` gives, where an expression makes that."""
        if t.name in DEFAULTS and re.fullmatch(EMPTIES.format(t.name) + MADE_EMPTY.get(t.name, ""), text):
            return EMPTY[t.name]
        return None

    @classmethod
    def initial(cls, t: Type) -> Optional[Value]:
        """The value of its Default, where that is no memory, and none that `Absent` gives."""
        if t.name not in EMPTY and t.name != "tuple" and not t.is_array() and has_default(t):
            return Value(f"{t.member('Default', 'is_default')} x", "Ok(Default::default())")
        if t.name != "tuple":
            return {"char": Value("x ≡ 0", "Ok('\\0')"), "()": Value("x ≡ tt", "Ok(())")}.get(t.name)
        facts, codes = [], []
        for place, one in enumerate(t.arguments):
            value = cls.initial(one) or Value(absent_of(one), "Ok(Absent::absent(alloc))")
            facts.append(f"({said_of(value.fact, f'x.{place}')})")
            codes.append(value.code[3:-1])
        return Value(" × ".join(facts), f"Ok(({', '.join(codes)}{',' * (len(codes) == 1)}))")

    def parts_given(self, path: str, name: str) -> List[List[Token]]:
        """What a function gives for the fields of the struct of this name, where its body is one."""
        found = self.named.get(path)
        texts = [token.text for token in found.body] if found and not found.parameters else []
        if texts[1:2] + texts[-1:] != ["{", "}"] or texts[0] not in ("Self", found.owner, name):
            return []
        return list(divided(found.body[2:-1]))

    def fields_given(self, path: str, name: str) -> Dict[str, Tuple[List[Token], str]]:
        """The same by the fields' names, where it has one for each, with the owner."""
        parts = self.parts_given(path, name)
        if not all(map(is_field, parts)):
            return {}
        self.used |= {path} if parts else set()
        return {part[0].text: (part[2:], self.named[path].owner) for part in parts}

    def why_no_fields(self, path: str, name: str) -> str:
        """Why a function gives no fields of the struct of this name, and what to write."""
        found, struct = self.named.get(path), f"`{name} {{ .. }}` with one value for each field, {ONE_VALUE}"
        if not found or not found.body:
            named = "" if path.count("::") > 1 or path.split("::")[0] in ROOTS else f" `{path}`"
            return f": write in this file one function{named} whose body is {struct}"
        part = next((one for one in self.parts_given(path, name) if not is_field(one)), None)
        if part:
            return f", as `{path}` has `{shown(part)}`: write each field there as `name: value`"
        return f", as `{path}` has {found.has()}: write there {struct}"

    def why_no_value(self, path: str) -> str:
        """Why a function gives no value that is known, and what to write."""
        found = self.named.get(path)
        if found and found.body:
            return f", as `{path}` has {found.has()}: write there one value, {ONE_VALUE}"
        return f": write in this file {'one' if found else 'a'} function `{path}` that gives one value, {ONE_VALUE}"

    def value(self, tokens: List[Token], t: Type, owner: str) -> Optional[Value]:
        """The value that an expression is."""
        for _ in range(MOST_NAMED):
            text = "".join(token.text for token in tokens)
            tokens = self.constants.get(self.whole(text, owner), tokens) if len(tokens) == 1 else tokens
        if self.empty(text, t):
            return self.empty(text, t)
        if t.name == "bool" and text in ("true", "false"):
            return Value(f"x ≡ {text}", f"Ok({text})")
        if t.name in NUMBERS:
            return self.number(tokens, t)
        if t.name == "String":
            return self.text(tokens)
        if t.name == "Duration":
            return self.duration(tokens, text)
        if t.name == "Option" and text.startswith("Some(") and text.endswith(")"):
            inner = self.value(tokens[2:-1], t.arguments[0], owner)
            told = inner and inner.fact.startswith("x ≡ ") and inner.code.startswith("Ok(")
            return Value(f"x ≡ Some ({inner.fact[4:]})", f"Ok(Some{inner.code[2:]})") if told else None
        return self.variant(tokens, t, owner)

    def number(self, tokens: List[Token], t: Type) -> Optional[Value]:
        """A number, or a product of numbers, that fits the type."""
        texts, sign = [token.text for token in tokens], 1
        if texts[:1] == ["-"]:
            texts, sign = texts[1:], -1
        number = 1
        for place, word in enumerate(texts or [""]):
            digits = re.fullmatch(r"(0x[0-9a-fA-F_]+?|[0-9][0-9_]*)(?:_?[ui](?:8|16|32|64|128|size))?", word)
            if ((word != "*") if place % 2 else not digits) or len(word) > MOST_DIGITS or number >= 2 ** 128:
                return None
            if digits:
                number *= int(digits.group(1).replace("_", ""), 16 if word[:2] == "0x" else 10)
        bits, number = int(re.sub(r"\D", "", t.name) or 64), sign * number
        low, high = (-(2 ** (bits - 1)), 2 ** (bits - 1)) if t.name in SIGNED else (0, 2 ** bits)
        if len(texts) % 2 == 0 or not low <= number < high:
            return None
        shown = number_term(number, t)
        return Value(f"x ≡ {shown}", f"Ok({number})")

    def duration(self, tokens: List[Token], text: str) -> Optional[Value]:
        """A duration of so many of a unit."""
        found = re.fullmatch(rf"(?:\w+::)*Duration::(from_({'|'.join(UNITS)}))\([^()]*\)", text)
        start = next((place for place, token in enumerate(tokens) if token.text == "("), 0) + 1
        number = self.number(tokens[start:-1], Type("u64")) if found else None
        if not number:
            return None
        many = number.code[3:-1]
        return Value(f"as_nanos x ≡ {int(many) * UNITS[found[2]]}", f"Ok(Duration::{found[1]}({many}))")

    @staticmethod
    def text(tokens: List[Token]) -> Optional[Value]:
        """A text that is made of a literal."""
        shape = "".join('"' if token.sort == "text" else token.text for token in tokens)
        if not re.fullmatch(r'"\.(?:to_owned|to_string|into)\(\)|String::from\("\)', shape):
            return None
        text = text_of(next(token for token in tokens if token.sort == "text"))
        if not text:
            return EMPTY["String"]
        if not re.fullmatch(r"[ !#-\[\]-~]+", text):
            return None
        return Value(f"string_bytes x ≡ {name_term(text)}", f"default_text(alloc, {name_call(text)})")

    def variant(self, tokens: List[Token], t: Type, owner: str) -> Optional[Value]:
        """A variant of an enum of the file, without values or with values by place that take no memory."""
        found = re.fullmatch(r"(\w+)::(\w+)(\(.*\))?", "".join(token.text for token in tokens), re.S)
        known, cases = self.variants.get(t.name, {}), CASES.format(t.name)
        if t.arguments or not found or found[2] not in known or not (found[1] == t.name or (found[1] == "Self" and owner == t.name)):
            return None
        name, types, given = found[2], known[found[2]], list(divided(tokens[4:-1]))
        if not types and not found[3]:
            return Value(f"x ≡ {cases}.{name}", f"Ok({t.name}::{name})")
        values = [self.value(part, one, owner) for part, one in zip(given, types)]
        if not types or len(given) != len(types) or not all(value and value.code.startswith("Ok(") for value in values):
            return None
        facts = " × ".join(said_of(value.fact, f"x{place}") for place, value in enumerate(values, 1))
        patterns = {one: " ".join([f"{cases}.{one}", *(f"x{i + 1}" for i in range(len(held)))]) for one, held in known.items()}
        arms = " ".join(f"| {pattern} ↦ {facts if one == name else '⊥'}" for one, pattern in patterns.items())
        return Value(f"elim x [ {arms} ]", f"Ok({t.name}::{name}({', '.join(value.code[3:-1] for value in values)}))")

    def tested(self, path: str, t: Type) -> Optional[Test]:
        """What a function tests, where its body compares its parameter with one value."""
        if t.name == "bool" and NOT.fullmatch(path):
            return bool_test(False)
        if t.name == "Duration" and IS_ZERO.fullmatch(path):
            return Test("(nat_eq (as_nanos {x}) 0)", "value.is_zero()", DEFAULTS["Duration"], "")
        found = self.named.get(path)
        if not found or len(found.parameters) != 1:
            return None
        self.used.add(path)
        name, body = found.parameters[0], "".join(token.text for token in found.body)
        if t.name == "bool" and body in (f"!{name}", f"!*{name}"):
            return bool_test(False)
        if t.name == "bool" and body == f"*{name}":
            return bool_test(True)
        for start, end in (([name, "=", "="], 0), (["*", name, "=", "="], 0), (["matches", "!", "(", name, ","], 1)):
            if [token.text for token in found.body[:len(start)]] == start:
                rest = found.body[len(start):len(found.body) - end]
                return self.compared(rest[rest[0].text == "&":] if rest else rest, t, found.owner)
        return None

    def compared(self, tokens: List[Token], t: Type, owner: str) -> Optional[Test]:
        """The test for one value."""
        text = "".join(token.text for token in tokens)
        if t.name == "String" and [token.sort for token in tokens] == ["text"]:
            tokens = tokens + [Token("sign", sign, 0) for sign in (".", "into", "(", ")")]
        called = self.whole(text[:-2], owner) if text.endswith("()") else ""
        value = self.given(called, t) if called in self.named else self.value(tokens, t, owner)
        if value == EMPTY.get(t.name) and t.name in NUMBERS:
            value = Value(DEFAULTS[t.name], "Ok(0)")
        if not value:
            return None
        if t.name == "bool":
            return bool_test(value.fact == "x ≡ true")
        if t.name in NUMBERS:
            eq, number = "int_eq" if t.name in SIGNED else "nat_eq", f"({value.fact[4:]})"
            return Test(f"({eq} {{x}} {number})", f"*value == {value.code[3:-1]}", value.fact,
                        f"equal_alike {eq} {{x}} {number} e y a")
        if t.name == "String" and value.fact.startswith("string_bytes x ≡ (name"):
            text = value.fact[len("string_bytes x ≡ "):]
            return Test(f"(bytes_eq (string_bytes {{x}}) {text})", f"value.as_str() == {value.code[len('default_text(alloc, '):-1]}",
                        value.fact, f"text_alike {{x}} {text} e y a")
        if t.name in self.variants and value.fact.startswith("x ≡ "):
            eq, one = f"⟦<{t.name} as PartialEq>⟧.eq", value.fact[4:]
            return Test(f"({eq} {{x}} {one})", f"*value == {value.code[3:-1]}", value.fact, f"equal_alike ({eq}) {{x}} {one} e y a")
        return None


def is_field(part: List[Token]) -> bool:
    """Whether this is a field's name and its value."""
    return len(part) > 2 and part[1].text == ":"


def returned(body: List[Token]) -> List[Token]:
    """The value of a body; one that is `return value;` gives that."""
    signs = [token.text for token in body]
    end = len(body) - (signs[-1:] == [";"])
    return body[1:end] if signs[:1] == ["return"] and ";" not in signs[:end] else body


def said_of(fact: str, value: str) -> str:
    """What contracts say of `x`, said of this value."""
    return re.sub(r'"[^"]*"|\bx\b', lambda found: found[0] if found[0][0] == '"' else value, fact)


def number_term(number: int, t: Type) -> str:
    """A number of a type as contracts write it."""
    return f"negsuc {-number - 1}" if number < 0 else f"pos {number}" if t.name in SIGNED else str(number)


def bool_test(passes: bool) -> Test:
    """The test for a boolean."""
    if passes:
        return Test("{x}", "*value", "x ≡ true", "true_alike {x} e y a")
    return Test("(not {x})", "!*value", "x ≡ false", "false_alike {x} e y a")


def divided(tokens: List[Token]) -> Iterator[List[Token]]:
    """The parts between commas, outside of brackets."""
    part: List[Token] = []
    depth = 0
    for token in tokens:
        depth += (token.text in ("(", "[", "{")) - (token.text in (")", "]", "}"))
        if token.text == "," and not depth:
            yield part
            part = []
        else:
            part.append(token)
    if part:
        yield part
