"""The names that are sent, as contracts and code have them.

A proof that had each name as its letters would depend on how long it is. So contracts have
`name "kind"`, which a proof opens only where it compares names, and code calls a function that hands the name out; a list
of names is handed out by a function of its own."""
import re
from itertools import chain, count
from typing import Dict, Iterator, List, Set

from .text import bare, clause, ghost

CALL = re.compile("\x02([^\x03]*)\x03")


def opening(*words: str) -> str:
    """The attribute of a function whose proof looks into these words."""
    return f"#[tactic(auto, unfolding({', '.join(f'serde_content::specs::Literals::{word}' for word in words)}))]"


SEALED = opening("name")
ROWS_OPENED = opening("row_then", "RowThen", "row_or_then", "RowOrThen")


def name_term(name: str) -> str:
    """A name in contracts."""
    return f'(name "{name}")'


def name_call(name: str) -> str:
    """A name in code, of which `with_names` makes a call."""
    return f"\x02{name}\x03"


def list_term(names: List[str]) -> str:
    """A list of names in contracts."""
    return "(" + " ∷ ".join([bare(name_term(name)) for name in names] + ["[]"]) + ")"


def opened(term: str) -> str:
    """A term that looks into names."""
    return f"unfold name index_among in {term}"


def list_impl(owner: str, about: str, names: List[str]) -> str:
    """The type that stands for a list of names, which hands it out."""
    shown = ", ".join(f'"{name}"' for name in names)
    return (f"/// {about}\n#[derive(Drop)]\nstruct {owner};\n\nimpl Names for {owner} {{\n"
            + ghost("names", bare(list_term(names)))
            + f"\n\n{SEALED}\nfn names() -> &'static [&'static str] {{\n&[{shown}]\n}}\n}}\n")


def name_method(method: str, name: str) -> str:
    """The method that hands a name out."""
    return f'{SEALED}\nfn {method}() -> &\'static str {{\n"{name}"\n}}'


def name_function(function: str, name: str) -> str:
    """The function that hands a name out."""
    return (f'/// The name `{name}`.\n{SEALED}\nfn {function}() -> &\'static str\n'
            + clause("ensures", f'result.now ≡ name "{name}"') + f'{{\n"{name}"\n}}\n')


def function_names(names: List[str], taken: Set[str]) -> Dict[str, str]:
    """What the function of each name is called: by its words, and by a number where that is taken."""
    functions: Dict[str, str] = {}
    choices: Dict[str, Iterator[str]] = {}
    for name in names:
        words = re.findall(r"[A-Z]?[a-z0-9]+|[A-Z0-9]+", name) or ["sign"]
        plain = "name_" + "_".join(words).lower()
        left = choices.setdefault(plain, chain([plain], (f"{plain}_{i}" for i in count(2))))
        functions[name] = next(called for called in left if called not in taken)
        taken.add(functions[name])
    return functions


def with_names(body: str, types: List[str]) -> str:
    """The text with calls in the place of its names, and after it the functions that they call, which are called
    as none of the types."""
    names = list(dict.fromkeys(CALL.findall(body)))
    functions = function_names(names, {name.lower() for name in types})
    called = CALL.sub(lambda found: f"{functions[found.group(1)]}()", body)
    return "\n".join([called] + [name_function(functions[name], name) for name in names])
