"""What each case makes of a name."""
from typing import Callable, Dict, Tuple

from .types import snake


def pascal(name: str) -> str:
    """A field's name with its words run together."""
    return "".join(word[:1].upper() + word[1:] for word in name.split("_"))


def camel(name: str) -> str:
    return name[:1].lower() + name[1:]


def same(name: str) -> str:
    return name


# what each case makes of a field's name, and of a variant's
CASES: Dict[str, Tuple[Callable[[str], str], Callable[[str], str]]] = {
    "lowercase": (same, str.lower),
    "UPPERCASE": (str.upper, str.upper),
    "PascalCase": (pascal, same),
    "camelCase": (lambda name: camel(pascal(name)), camel),
    "snake_case": (same, snake),
    "SCREAMING_SNAKE_CASE": (str.upper, lambda name: snake(name).upper()),
    "kebab-case": (lambda name: name.replace("_", "-"), lambda name: snake(name).replace("_", "-")),
    "SCREAMING-KEBAB-CASE": (lambda name: name.upper().replace("_", "-"),
                             lambda name: snake(name).upper().replace("_", "-")),
}
