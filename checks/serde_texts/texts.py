"""Stands between the page of texts and the two programs that print them.

  texts.py cases PAGE CASES.rs CASES.rt    writes the page's cases for both programs
  texts.py page PAGE HERE SERDE            prints the page with what each of them printed
"""
import json
import re
import sys
from pathlib import Path

ROW = re.compile(r"\| `(?P<type>[^`]+)` \| `(?P<value>[^`]+)` \|")
TYPES = "".join(f"use crate::{module}::*;\n" for module in ("choices", "inlined", "more", "sorts", "types"))

RUST = TYPES + """use crate::{{refusal, tree::Tree}};
use std::collections::BTreeMap;

pub fn print_all() {{
{cases}}}
"""
RUST_CASE = '    println!("{{}}", refusal::<{type}>({value}));\n'

# A function for each case: one of them all takes the compiler minutes.
RATTLE = "//! The cases.\n\n" + TYPES + """use crate::refusal;
use serde_content::{{Result, Value}};
use std::alloc::Global;
use std::collections::BTreeMap;

/// Prints the text of each.
pub fn print_all(rt: &HostRuntime) -> anyhow::Result<()> {{
    let alloc = rt.alloc();
{calls}    Ok(())
}}
{cases}"""
RATTLE_CALL = '    println!(rt; "{{}}", case_{n}(alloc)?)?;\n'
RATTLE_CASE = """
fn case_{n}(alloc: Global) -> Result<String> {{
    refusal::<{type}>(alloc, {value})
}}
"""


class Pairs(list):
    """The entries of a map, some of which may come twice."""


def rust(value) -> str:
    """A `Tree` of this value."""
    if isinstance(value, Pairs):
        return f"Tree::Map(vec![{', '.join(f'({rust(k)}, {rust(v)})' for k, v in value)}])"
    if isinstance(value, list):
        return f"Tree::Seq(vec![{', '.join(map(rust, value))}])"
    if isinstance(value, bool):
        return f"Tree::Bool({json.dumps(value)})"
    if isinstance(value, int):
        return f"Tree::{'Signed' if value < 0 else 'Unsigned'}({value})"
    return "Tree::Null" if value is None else f"Tree::Text({json.dumps(value)})"


def rattle(value) -> str:
    """A `Value` of this value."""
    if isinstance(value, Pairs):
        return f"Value::Map({vector(f'({rattle(k)}, {rattle(v)})' for k, v in value)})"
    if isinstance(value, list):
        return f"Value::Seq({vector(map(rattle, value))})"
    kind = "" if isinstance(value, (bool, str)) else "i64" if value and value < 0 else "u64"
    return "Value::Unit" if value is None else f"Value::from({json.dumps(value)}{kind})"


def vector(items) -> str:
    items = ", ".join(items)
    return f"vec![in alloc; {items}]?" if items else "Vec::new(alloc)"


def write_cases(page: Path, for_rust: Path, for_rattle: Path) -> None:
    rows = [row for row in map(ROW.match, page.read_text().splitlines()) if row]
    cases = [(n, row["type"], json.loads(row["value"], object_pairs_hook=Pairs)) for n, row in enumerate(rows)]
    for_rust.write_text(RUST.format(
        cases="".join(RUST_CASE.format(type=t, value=rust(v)) for _, t, v in cases)))
    for_rattle.write_text(RATTLE.format(
        calls="".join(RATTLE_CALL.format(n=n) for n, _, _ in cases),
        cases="".join(RATTLE_CASE.format(n=n, type=t, value=rattle(v)) for n, t, v in cases)))


def filled(page: Path, here: Path, serde: Path) -> str:
    """The page with these texts, one a row."""
    texts = zip(here.read_text().splitlines(), serde.read_text().splitlines())
    lines = []
    for line in page.read_text().splitlines():
        row = ROW.match(line)
        if row:
            ours, theirs = next(texts)
            line = f"{row[0]} {code(ours)} | {'the same' if theirs == ours else code(theirs)} |"
        lines.append(line + "\n")
    return "".join(lines)


def code(text: str) -> str:
    return f"`` {text} ``" if "`" in text else f"`{text}`"


if __name__ == "__main__":
    command, *files = sys.argv[1:]
    if command == "cases":
        write_cases(*map(Path, files))
    else:
        sys.stdout.write(filled(*map(Path, files)))
