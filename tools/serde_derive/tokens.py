"""The tokens of a file of Rust, and a place among them.

They are read by hand: Debian has no grammar of Rust for tree-sitter, and `syn` would need cargo and
a build on each machine, where python3 alone has to do.
"""
import re
from typing import Callable, Dict, List, NamedTuple

from .declarations import MOST_QUOTED, NotRust, Refused, one_line


class Token(NamedTuple):
    """A token of Rust; a documentation comment is one too, a line each."""

    sort: str
    text: str
    line: int


TOKEN = re.compile(r"""
    (?P<blank>[\t-\r\ \x85\u200e\u200f\u2028\u2029]+|//(?![/!])[^\n]*|////[^\n]*)
  | (?P<doc>//[/!][^\n]*)
  | (?P<block>/\*)
  | (?P<raw>[bc]?r(?P<hashes>\#*)".*?"(?P=hashes))
  | (?P<text>[bc]?"(?:[^"\\]|\\.)*")
  | (?P<char>b?'(?:[^'\\\n]|\\(?:u\{[^}\n]*\}|x[0-9a-fA-F]{2}|[^ux\n]))')
  | (?P<unclosed>[bc]?r\#*"|[bc]?")
  | (?P<lifetime>'[^\W\d]\w*)
  | (?P<name>(?:r\#)?[^\W\d]\w*)
  | (?P<number>\d\w*(?:\.\d\w*)?)
  | (?P<sign>::|->|=>|[!#$%&()*+,./:;<=>?@\[\]^{|}~-])
  | (?P<unknown>.)""", re.VERBOSE | re.DOTALL)
KEYWORDS = set("""as async await break const continue crate dyn else enum extern false fn for if impl in let loop match
mod move mut pub ref return self Self static struct super trait true type unsafe use where while
abstract become box do final macro override priv try typeof unsized virtual yield""".split())
ROOTS = {"crate", "self", "super", "Self"}
LONGEST = 100
CLOSES = {"(": ")", "[": "]", "{": "}"}
ESCAPES = {"n": "\n", "r": "\r", "t": "\t", "0": "\0", "\\": "\\", "'": "'", '"': '"', "\n": ""}


def block_end(source: str, start: int, line: int) -> int:
    """Where the comment ends that begins here; comments nest."""
    depth = 0
    for found in re.compile(r"/\*|\*/").finditer(source, start):
        depth += 1 if found.group() == "/*" else -1
        if not depth:
            return found.end()
    raise NotRust(line, "the comment that begins here is not closed")


def block_docs(text: str, line: int) -> List[Token]:
    """The lines of a block comment that is documentation."""
    if not re.match(r"/\*(?:\*(?![*/])|!)", text):
        return []
    mark = "//!" if text[2] == "!" else "///"
    lines = [re.sub(r"^\s*\* ?", "", each) if place else each for place, each in enumerate(text[3:-2].split("\n"))]
    shown = [f"{mark} {each.strip()}".rstrip() for each in lines]
    return [Token("doc", each, line) for each in shown[not lines[0].strip():len(shown) - (not lines[-1].strip())]]


def tokens_of(source: str) -> List[Token]:
    """The tokens of a source, and one for its end."""
    tokens, at, line = [], 0, 1
    while found := TOKEN.match(source, at):
        sort, text, at = found.lastgroup, found.group(), found.end()
        if sort == "block":
            at = block_end(source, found.start(), line)
            text = source[found.start():at]
            tokens += block_docs(text, line)
        elif sort == "unclosed":
            raise NotRust(line, "the text that begins here is not closed")
        elif sort == "unknown":
            shown = f"`{text}`" if text.isprintable() else f"U+{ord(text):04X}"
            raise NotRust(line, f"{shown} begins no token of Rust")
        elif sort != "blank":
            tokens.append(Token("text" if sort == "raw" else sort, text, line))
        if "\n" in text:
            line += text.count("\n")
    tokens.append(Token("end", "the end of the file", line))
    return tokens


def pairs_of(tokens: List[Token]) -> Dict[int, int]:
    """The place of the closing bracket for that of each opening one."""
    pairs, opened = {}, []
    for place, token in enumerate(tokens):
        if token.sort != "sign":
            continue
        if token.text in CLOSES:
            opened.append(place)
        elif token.text in ")]}":
            if not opened:
                raise NotRust(token.line, f"`{token.text}` closes nothing that is open")
            opening = tokens[opened[-1]]
            if CLOSES[opening.text] != token.text:
                raise NotRust(token.line, f"expected `{CLOSES[opening.text]}` for the `{opening.text}` of line {opening.line},"
                              f" found `{token.text}`")
            pairs[opened.pop()] = place
    if opened:
        raise NotRust(tokens[opened[-1]].line, f"`{tokens[opened[-1]].text}` is not closed")
    return pairs


def apart(text: str, after: str) -> bool:
    """Whether a blank stands between two tokens in a line that is shown."""
    if text == "=" or after in ("=", "->"):
        return True
    return (text[-1] in ",:;)>!\"'_" and text != "::" or text[-1].isalnum()) and (after[0] in "_\"'" or after[0].isalnum())


def escaped(found: "re.Match[str]") -> str:
    """What an escape in a text stands for; a ValueError says that it is none."""
    word = found.group(1)
    if word[0] in ESCAPES:
        return ESCAPES[word[0]]
    number = int(re.sub(r"[{}_]", "", word[1:]), 16)
    if number > (0x7F if word[0] == "x" else 0x10FFFF) or 0xD800 <= number < 0xE000:
        raise ValueError
    return chr(number)


def text_of(token: Token) -> str:
    """The value of a literal text."""
    if token.sort != "text" or token.text[0] in "bc":
        raise NotRust(token.line, f"expected a text in quotes, found `{token.text}`")
    if token.text[0] == "r":
        return token.text[1:].strip("#")[1:-1]
    try:
        return re.sub(r'\\(u\{[0-9a-fA-F_]+\}|x[0-9a-fA-F]{2}|\n\s*|.)', escaped, token.text[1:-1])
    except ValueError:
        raise NotRust(token.line, f"{token.text} holds an escape for no character") from None


def shown(tokens: List[Token], most: int = 16) -> str:
    """These tokens as a line, of which the first stand for many."""
    texts = [one_line(token.text) for token in tokens[:most]]
    line = "".join(text + " " * apart(text, after) for text, after in zip(texts, texts[1:] + [";"]))
    return line[:MOST_QUOTED] + " .." * (len(tokens) > most or len(line) > MOST_QUOTED)


class Cursor:
    """A place among the tokens of a file."""

    def __init__(self, source: str):
        self.tokens, self.place = tokens_of(source), 0
        self.pairs = pairs_of(self.tokens)

    @property
    def next(self) -> Token:
        return self.tokens[self.place]

    def after(self) -> Token:
        """The token after the next one."""
        return self.tokens[min(self.place + 1, len(self.tokens) - 1)]

    def take(self) -> Token:
        token = self.next
        self.place += token.sort != "end"
        return token

    def eat(self, text: str) -> bool:
        """Takes this token, if it comes next."""
        came = self.next.text == text
        self.place += came
        return came

    def expect(self, text: str) -> None:
        if not self.eat(text):
            raise NotRust(self.next.line, f"expected `{text}`, found `{self.next.text}`")

    def name(self, root: bool = False) -> str:
        """A name; at the root of a path also `crate` and the like."""
        token = self.next
        if token.sort != "name" or (token.text in KEYWORDS and not (root and token.text in ROOTS)) or token.text == "_":
            raise NotRust(token.line, f"expected a name, found `{token.text}`")
        if token.text.startswith("r#"):
            raise Refused(token.line, f"the name `{token.text}` is not covered: give it a plain name, and its own by"
                          f" `#[serde(rename = \"{token.text[2:]}\")]`")
        if not token.text.isascii():
            raise Refused(token.line, f"the name `{token.text}` is not covered, as Rattle takes names in ASCII alone:"
                          " give it another")
        if len(token.text) > LONGEST:
            raise Refused(token.line, f"a name of more than {LONGEST} letters is not covered: shorten it")
        return self.take().text

    def path(self) -> List[str]:
        """Names with `::` between them; only the first, or a `super` after it, is one of the roots."""
        names = [] if self.eat("::") else [self.name(root=True)]
        while not names or (self.next.text == "::" and self.after().sort == "name"):
            self.place += bool(names)
            names.append(self.name(root=self.next.text == "super" and names[-1:] in (["self"], ["super"])))
        return names

    def listed(self, close: str, one: Callable[[], None]) -> bool:
        """Items with commas between them, up to the closing sign; whether a comma was the last."""
        comma = False
        while not self.eat(close):
            one()
            comma = self.eat(",")
            if not comma:
                self.expect(close)
                break
        return comma

    def pass_one(self) -> None:
        """Passes a token, or brackets with what is in them; the end of the file stays."""
        if self.place in self.pairs:
            self.place = self.pairs[self.place]
        self.place += self.next.sort != "end"

    def pass_to(self, *ends: str, angles: bool = False) -> None:
        """Passes tokens, brackets with what is in them, up to one of these signs or a closing bracket.
        Where `angles` is set, `<` and `>` are brackets too."""
        depth = 0
        while self.next.sort != "end" and (self.next.text not in ends or depth > 0) and self.next.text not in ")]}":
            depth += {"<": 1, ">": -1}.get(self.next.text, 0) * angles
            self.pass_one()

    def shown(self, start: int, end: int, most: int = 16) -> str:
        """The tokens between two places, as a line."""
        return shown(self.tokens[start:end], most)
