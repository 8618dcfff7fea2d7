"""Runs tools/derive on each block of declarations in taken.rs, refused.rs and not_rust.rs, and on files that it can't read.

Above a block stand the lines that it answers on standard error, after `// `; in taken.rs also `// + text` for what the
module has, and `// - text` for what it has not. All modules that are written must be laid out by `rt fmt`."""
import re
import subprocess
import sys
import tempfile
import time
from pathlib import Path
from typing import Iterator, List, Tuple

top = Path(sys.argv[1])
here = top / "checks" / "derive"
sys.dont_write_bytecode = True
sys.path.insert(0, str(top / "tools"))

from serde_derive.declarations import Refusals  # noqa: E402
from serde_derive.module import module  # noqa: E402


def outcome(source: str) -> Tuple[int, List[str], str]:
    """The status for a source, the lines that it answers and the module."""
    notes, text, status, lines = [], "", 0, []
    try:
        text = module(source, "types.rs", "a", "types", True, notes)
    except Refusals as refusals:
        status, lines = refusals.status, [f"{refused.line}: {refused}" for refused in refusals.each]
    return status, [f"{line}: {note}" for line, note in notes] + lines, text


def blocks(name: str) -> Iterator[Tuple[List[str], str]]:
    """The blocks of a file, each with the lines above it."""
    for block in (here / name).read_text(encoding="utf-8").split("\n\n")[1:]:
        wanted = re.match(r"(?:// .*\n)*", block).group()
        yield [line[3:] for line in wanted.splitlines()], block[len(wanted):].rstrip("\n") + "\n"


def faults(status: int, wanted: List[str], source: str, written: List[str]) -> Iterator[str]:
    """What of a block is otherwise than it should be."""
    got, lines, text = outcome(source)
    answers = [line for line in wanted if line[:2] not in ("+ ", "- ")]
    if (got, lines) != (status, answers):
        yield "\n".join([f"wanted {status}"] + answers + [f"found {got}"] + lines)
    for line in wanted:
        if line[:2] in ("+ ", "- ") and (line[2:] in " ".join(text.split())) != (line[0] == "+"):
            yield f"{'lacks' if line[0] == '+' else 'has'} {line[2:]}"
    written.append(text)


def large() -> Iterator[Tuple[str, int, str]]:
    """Large files: what each has, the status that it ends with, and its text."""
    derive = "#[derive(Serialize, Deserialize)]\n"
    for opens, closes in (("Option<", ">"), ("(", ",)"), ("Vec<(u8, ", ")>")):
        yield f"1,000 of {opens}", 2, f"{derive}struct A({opens * 1000}u8{closes * 1000});\n"
    yield "47 of Option<", 0, f"{derive}struct A({'Option<' * 47}u8{'>' * 47});\n"
    yield "1,000 aliases", 2, f"{derive}struct A(T999);\ntype T0 = u8;\n" + "".join(
        f"type T{i} = T{i - 1};\n" for i in range(1, 1000))
    for count, status in ((56, 0), (57, 2), (1000, 2)):
        yield f"a chain of {count} structs", status, "".join(
            f"{derive}struct A{i} {{ x: A{i + 1} }}\n" for i in range(count - 1)) + f"{derive}struct A{count - 1};\n"
        yield f"a chain of {count} structs in boxes", 0, "".join(
            f"{derive}struct A{i} {{ x: Box<A{i + 1}> }}\n" for i in range(count - 1)) + f"{derive}struct A{count - 1};\n"
    for count, last, status in ((27, "Option<u8>", 0), (28, "u8", 2), (28, "Option<u8>", 2)):
        yield f"{count} options of structs around {last}", status, "".join(
            f"{derive}struct A{i} {{ x: Option<A{i + 1}> }}\n" for i in range(count)) + f"{derive}struct A{count} {{ x: {last} }}\n"
    default = derive.replace("(", "(Default, ")
    yield "a chain of 1,000 structs with Default", 2, "".join(
        f"{default}#[serde(default)]\nstruct A{i} {{ x: A{i + 1} }}\n" for i in range(1000)) + f"{default}struct A1000;\n"
    yield "40 structs with Default, each with two of the next", 0, "".join(
        f"{default}struct A{i} {{ x: A{i + 1}, y: A{i + 1} }}\n" for i in range(40)) + f"{default}struct A40;\n"
    for count, status in ((20, 0), (1000, 2)):
        yield f"a chain of {count} structs with parameters", status, "".join(
            f"{derive}struct A{i}<T> {{ x: Box<A{i + 1}<T>> }}\n" for i in range(count)) + (
            f"{derive}struct A{count}<T>(Vec<T>);\n{derive}struct A(A0<u8>);\n")
    for count, status in ((4, 0), (20, 2)):
        yield f"{count} structs with parameters, each with two of the next", status, "".join(
            f"{derive}struct A{i}<T> {{ x: Box<A{i + 1}<T>>, y: Box<A{i + 1}<Vec<T>>> }}\n" for i in range(count)) + (
            f"{derive}struct A{count}<T>(Vec<T>);\n{derive}struct A(A0<u8>);\n")
    yield "a ring of 1,000 structs", 2, "".join(f"{derive}struct A{i}(A{(i + 1) % 1000});\n" for i in range(1000))
    yield "1,000 structs that are flattened", 2, "".join(
        f"{derive}struct A{i} {{ x{i}: u8, #[serde(flatten)] y: A{i + 1} }}\n" for i in range(1000)) + (
        f"{derive}struct A1000 {{ z: u8 }}\n")
    for count, status in ((100, 0), (1000, 2)):
        yield f"{count} structs of one value that are flattened", status, f"{derive}struct A {{ #[serde(flatten)] x: A0 }}\n" + "".join(
            f"{derive}struct A{i}(Box<A{i + 1}>);\n" for i in range(count)) + f"{derive}struct A{count} {{ y: u8 }}\n"
    sent = "#[derive(Serialize)]\n"
    yield "40 flattened enums, each with two of the next", 0, f"{sent}struct A {{ #[serde(flatten)] x: A0 }}\n" + "".join(
        f"{sent}#[serde(untagged)]\nenum A{i} {{ X(Box<A{i + 1}>), Y(Box<A{i + 1}>) }}\n" for i in range(40)) + (
        f"{sent}struct A40 {{ y: u8 }}\n")
    yield "1,000 fields", 2, f"{derive}struct A {{\n{''.join(f'    x{i}: u8,{chr(10)}' for i in range(1000))}}}\n"
    left_out = '#[serde(skip_serializing_if = "Option::is_none")] '
    for count, status in ((64, 0), (65, 2)):
        yield f"{count} fields that may be left out", status, derive + "struct A { %s }\n" % ", ".join(
            f"{left_out}x{i}: Option<u8>" for i in range(count))
    yield "1,000 variants", 2, f"{derive}enum A {{\n{''.join(f'    X{i},{chr(10)}' for i in range(1000))}}}\n"
    yield "a name of 1,000 letters", 2, f"{derive}struct A{'a' * 1000};\n"
    for number in ("9" * 10000, " * ".join(["9"] * 10000)):
        yield f"a number of {len(number)} signs", 2, (
            f"{derive}struct A {{ #[serde(default = \"f\")] x: u8 }}\nfn f() -> u8 {{ {number} }}\n")
    yield "2,000 conditions", 2, f"#[{'cfg_attr(a, ' * 2000}derive(Serialize){')' * 2000}]\nstruct A;\n"
    yield "2,000 braces of a use", 2, f"use {'a::{' * 2000}b{'}' * 2000};\n"
    yield "100,000 brackets", 1, "(" * 100000 + ")" * 100000
    yield "100,000 open comments", 1, "/*" * 100000
    yield "100,000 lines of structs", 2, "".join(f"{derive}struct A{i} {{\n    x: u8,\n}}\n" for i in range(25000))
    yield "100,000 lines of functions", 0, f"{derive}struct A;\n" + "fn f() {\n    g(1);\n}\n\n" * 25000


def too_many() -> Iterator[str]:
    """What is said otherwise than it should be of more fields than are covered, in every sort of brackets."""
    wanted = "more than 250 fields are not covered: hold some in a struct of their own"
    named, by_place = ", ".join(f"x{i}: u8" for i in range(251)), ", ".join(["u8"] * 251)
    for where, declared in (("A", f"struct A {{ {named} }}"), ("A", f"struct A({by_place});"),
                            ("A.X", f"enum A {{ X {{ {named} }} }}"), ("A.X", f"enum A {{ X({by_place}) }}")):
        got = outcome(f"#[derive(Serialize)]\n{declared}\n")[:2]
        if got != (2, [f"2: {where}: {wanted}"]):
            yield f"{declared[:20]}: wanted {wanted}\nfound {got}"


def slow_or_wrong() -> Iterator[str]:
    """Which large files end otherwise than they should, or take more than 60 seconds of the processor."""
    for what, status, source in large():
        start = time.process_time()
        got, lines, _ = outcome(source)
        seconds = time.process_time() - start
        if got != status or seconds > 60:
            yield f"{what}: wanted {status}, found {got} in {seconds:.0f} seconds: {lines[-1:]}"


def command(room: Path, *words: str) -> Tuple[int, str, str]:
    """The status of the command, what it answers, with the room's path left out, and what it prints."""
    done = subprocess.run([top / "tools" / "derive", "--crate", "a", "--module", "types", *words], cwd=room,
                          capture_output=True, text=True)
    return done.returncode, done.stderr.replace(f"{room}/", "").strip(), done.stdout


def commands(room: Path) -> Iterator[str]:
    """What of the command itself is otherwise than it should be."""
    good, bad, out = room / "good.rs", room / "bad.rs", room / "out.rt"
    good.write_bytes("\ufeff#[derive(Serialize)]\r\n/// The\r\n/// number.\r\nstruct A(u8);\r\n".encode())
    bad.write_text("#[derive(Serialize)]\nstruct A(f32);\n")
    (room / "empty.rs").write_text("")
    (room / "comments.rs").write_text("// Nothing\n/* at all */\n")
    nothing = "no struct or enum here derives Serialize or Deserialize: derive one of them"
    (room / "latin.rs").write_bytes(b"//! caf\xe9\n")
    out.write_text("what stood there\n")
    tries = [
        (["bad.rs", "-o", "out.rt"], 2, "bad.rs:2: A.0: floats are not covered: hold a whole number of a smaller unit, or a String", "what stood there\n"),
        (["good.rs", "-o", "nowhere/out.rt"], 1, "nowhere/out.rt: can't be written: No such file or directory", None),
        (["none.rs"], 1, "none.rs: can't be read: No such file or directory", None),
        (["."], 1, ".: can't be read: Is a directory", None),
        (["latin.rs"], 1, "latin.rs:1: is not UTF-8: store the file so", None),
        (["latin.rs", "-o", "out.rt"], 1, "latin.rs:1: is not UTF-8: store the file so", "what stood there\n"),
        (["empty.rs", "-o", "out.rt"], 2, f"empty.rs:1: {nothing}", "what stood there\n"),
        (["comments.rs", "-o", "out.rt"], 2, f"comments.rs:1: {nothing}", "what stood there\n"),
        (["good.rs", "-o", "."], 1, ".: can't be written: Is a directory", None),
        (["good.rs", "-o", "../" + room.name + "/good.rs"], 1,
         f"../{room.name}/good.rs: holds the declarations: write the module to another file", None),
        (["good.rs", "--check", "none.rt"], 1, "none.rt: can't be read: No such file or directory", None),
        (["good.rs", "-o", "out.rt"], 0, "", None),
        (["good.rs", "--check", "out.rt"], 0, "", None),
        (["good.rs", "--check", "bad.rs"], 1, "bad.rs:1: stored: #[derive(Serialize)]\n1: written: //! Types that are"
         " sent and read.", None),
    ]
    for words, status, answer, stored in tries:
        got = command(room, *words)
        if got[:2] != (status, answer) or (stored and out.read_text() != stored):
            yield f"{' '.join(words)}: wanted {status} {answer}\nfound {got[0]} {got[1]}"
    for word in ("ghost", "requires", "gen", "ensures", "deriving"):
        got = command(room, "good.rs", "--module", f"model::{word}")
        if got[0] != 2 or not got[1].endswith(f"--module model::{word}: `{word}` is a word of Rattle's: give the module another name"):
            yield f"--module model::{word}: found {got[0]} {got[1]}"
    if out.read_text() != command(room, "good.rs")[2] or b"\r" in out.read_bytes() or "\ufeff" in out.read_text():
        yield "the module is not as it is printed, or has line ends or a mark of its declarations"
    if sorted(path.name for path in room.iterdir()) != ["bad.rs", "comments.rs", "empty.rs", "good.rs", "latin.rs", "out.rt"]:
        yield f"files were left: {sorted(path.name for path in room.iterdir())}"


def laid_out(room: Path, written: List[str]) -> Iterator[str]:
    """What `rt fmt` says of the modules that were written."""
    folder = room / "crates" / "written" / "src"
    folder.mkdir(parents=True)
    (room / "crates.txt").write_text("written:\n")
    modules = [text for text in written if text]
    for place, text in enumerate(modules):
        (folder / f"m{place}.rt").write_text(text, encoding="utf-8")
    (folder / "lib.rt").write_text("//! All.\n" + "".join(f"mod m{place};\n" for place in range(len(modules))))
    done = subprocess.run(["rt", "fmt"], cwd=folder.parent, capture_output=True, text=True)
    yield from (line for line in (done.stdout + done.stderr).splitlines() if "rt: formatted" not in line)


def main() -> int:
    count, wrong, written = 0, [], []
    for status, name in enumerate(("taken.rs", "not_rust.rs", "refused.rs")):
        for wanted, source in blocks(name):
            count += 1
            wrong += [f"{name}: {fault}\n{source}" for fault in faults(status, wanted, source, written)]
    wrong += [*too_many(), *slow_or_wrong()]
    with tempfile.TemporaryDirectory() as room:
        wrong += commands(Path(room))
    with tempfile.TemporaryDirectory() as room:
        wrong += laid_out(Path(room), written)
    print("\n".join(wrong + [f"derive: {count} declarations, {len(wrong)} otherwise than they should be"]))
    return 1 if wrong else 0


if __name__ == "__main__":
    sys.exit(main())
