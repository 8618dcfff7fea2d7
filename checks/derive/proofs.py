"""Writes types of matrix.py into crates of a scratch repository, checks these, and prints what is not
proved: proofs.py TOP ROOM [--cbor] [WHICH ..], by checks/derive_proofs.sh."""
import os
import random
import re
import resource
import shutil
import subprocess
import sys
from pathlib import Path
from typing import Dict, List, Optional

from declarations import IMPORTS, declarations
from matrix import matrix
from randoms import randoms

LIBRARIES = ["content_tree", "content_ser", "content_build", "content_de", "serde_content", "content_nested", "content_cbor"]
TOGETHER, JOBS = int(os.environ.get("TOGETHER", 16)), os.environ.get("JOBS", "2")
# the modules by hand whose functions types name by their path, and the crates by hand, each with its file and that one's module
MODULES = ["rules", "custom_serde"]
CRATES = {"figment": ("util", "util"), "helpers": ("helpers", "lib")}


def drawn(which: List[str]) -> Dict[str, str]:
    """The types of the matrix, or the declarations, with these names; as many types as a count says, drawn by a seed; those that
    are made at random of a seed; or all."""
    if which[:1] == ["random"]:
        return randoms(*map(int, (which[1:] + ["60"])[:2]))
    every = matrix()
    names = which or sorted(every)
    if which and which[0].isdigit():
        count, seed = (list(map(int, which)) + [0])[:2]
        names = random.Random(seed).sample(sorted(every), count)
    declared = {name: IMPORTS + text for name, text in declarations()}
    return {name: every.get(name) or declared[name] for name in names}


def link_or_copy(source: str, target: str) -> None:
    """Links a file, or copies it where the target is on another disk."""
    try:
        os.link(source, target)
    except OSError:
        shutil.copy2(source, target)


def repository(top: Path, room: Path, libraries: List[str]) -> None:
    """A repository of the libraries, as they are built. Their files are linked where that can be, as nothing writes them."""
    lines = [line for line in (top / "crates.txt").read_text().splitlines()
             if line.split(":")[0] in libraries]
    (room / "crates.txt").write_text("\n".join(lines) + "\n")
    shutil.copy(top / "HANDLES", room)
    (room / ".git").mkdir()
    for name in libraries:
        shutil.copytree(top / "crates" / name, room / "crates" / name, ignore=shutil.ignore_patterns("incremental"),
                        copy_function=link_or_copy)


def crate(top: Path, room: Path, name: str, types: Dict[str, str], flags: List[str], libraries: List[str]) -> List[str]:
    """Writes the crate of these types; those that tools/derive refuses are left out, and named."""
    source, refused, hand = room / "crates" / name / "src", [], top / "checks" / "derive" / "by_hand"
    source.mkdir(parents=True)
    for module, text in types.items():
        declared = room / f"{module}.rs"
        declared.write_text(text)
        command = [str(top / "tools" / "derive"), "--crate", name, "--module", module, *flags, str(declared)]
        written = subprocess.run(command, capture_output=True, text=True)
        if written.returncode:
            refused.append(module)
            print(f"{module}: refused: {written.stderr.strip().splitlines()[-1]}", flush=True)
        else:
            (source / f"{module}.rt").write_text(written.stdout)
    for module in [one for one in MODULES if any(f"crate::{one}" in text for text in types.values())]:
        by_hand(hand, source.parent, module, module)
    for module in types:
        by_hand(hand, source.parent, module, f"{module}_by_hand")
    others = [one for one in CRATES if any(f'"{one}::' in text for text in types.values())]
    for other in [one for one in others if not (room / "crates" / one).exists()]:
        by_hand(hand / other, room / "crates" / other, *CRATES[other])
        root(room, other, libraries)
        build(room / "crates" / other)
    root(room, name, libraries + others)
    return [module for module in types if module not in refused]


def build(crate: Path) -> None:
    """Proves and builds a crate by hand; where that isn't done, no type that calls its functions is proved."""
    done = subprocess.run(["rt", "lib", "--jobs", JOBS], cwd=crate, capture_output=True, text=True, errors="replace")
    if done.returncode:
        print(f"{crate.name}: not built: {(done.stdout + done.stderr).strip().splitlines()[-1]}", flush=True)


def root(room: Path, name: str, uses: List[str]) -> None:
    """Writes the root of a crate, unless it is there, and its line in the list of all."""
    source = room / "crates" / name / "src"
    kept = [f"pub mod {file.stem};" for file in sorted(source.glob("*.rt"))]
    if not (source / "lib.rt").exists():
        (source / "lib.rt").write_text("\n".join(["//! Types.", "#![tactic(auto)]", "", *kept, ""]))
    with open(room / "crates.txt", "a") as crates:
        crates.write(f"{name}: {' '.join(uses)}\n")


def by_hand(folder: Path, crate: Path, of: str, module: str) -> None:
    """Writes the module of what types call that is written by hand, if there is one, and the definitions of its contracts."""
    words = of.title().replace("_", "")
    for part, place in ((f"{of}.rt.in", f"src/{module}.rt"), (f"{words}.antt.in", f"specs/{words}.antt")):
        text = folder / part
        if text.exists():
            (crate / place).parent.mkdir(parents=True, exist_ok=True)
            (crate / place).write_text(text.read_text().replace("CRATE", crate.name))
    definitions = sorted(file.stem for file in (crate / "specs").glob("*.antt") if file.stem != "Lib")
    if definitions:
        (crate / "specs" / "Lib.antt").write_text("".join(f"pub mod {one}\n" for one in definitions))


def failing(name: str, module: str, log: str) -> str:
    """The first goal of a module that is not proved, or nothing."""
    found = re.search(rf"^(?:fn|impl|struct|enum|trait) {name}::{module}::(?!.*: proved$).*$", log, re.M)
    goal = re.search(rf"^fn {name}::{module}::(\S+): no proof: .*?did not prove `([^`]*)`", log, re.M)
    error = re.search(rf"^src/{module}\.rt:\d+:\d+: error: .*$", log, re.M)
    return f"{goal.group(1)}: {goal.group(2)}" if goal else error.group(0) if error else found.group(0) if found else ""


def check(room: Path, name: str, modules: List[str]) -> List[str]:
    """Checks a crate, prints what is not proved of it and its seconds, and gives what is."""
    before = resource.getrusage(resource.RUSAGE_CHILDREN).ru_utime
    command = ["rt", "check", "--jobs", JOBS]
    done = subprocess.run(command, cwd=room / "crates" / name, capture_output=True, text=True, errors="replace")
    seconds = resource.getrusage(resource.RUSAGE_CHILDREN).ru_utime - before
    log, proved = done.stdout + done.stderr, []
    for module in modules:
        why = failing(name, module, log)
        if why or f" {name}::{module}::" not in log:
            print(f"{module}: not proved: {why or log.strip().splitlines()[-1]}", flush=True)
        else:
            proved.append(module)
    print(f"{name}: {len(proved)} of {len(modules)} proved, {seconds:.0f} s: {' '.join(modules)}", flush=True)
    return proved


def earlier(path: Optional[str]) -> List[str]:
    """The types that an earlier run found proved."""
    return Path(path).read_text().split() if path and Path(path).exists() else []


def main() -> int:
    top, room, kept = Path(sys.argv[1]), Path(sys.argv[2]), os.environ.get("PROVED")
    flags = [word for word in sys.argv[3:] if word.startswith("-")]
    types = drawn([word for word in sys.argv[3:] if word not in flags])
    libraries = LIBRARIES if "--cbor" in flags else LIBRARIES[:-1]
    (room / "crates").mkdir()
    repository(top, room, libraries)
    names, failed = [name for name in types if name not in earlier(kept)], 0
    for place in range(0, len(names), TOGETHER):
        name = f"types{place // TOGETHER}"
        modules = crate(top, room, name, {one: types[one] for one in names[place:place + TOGETHER]}, flags, libraries)
        proved = check(room, name, modules)
        failed += len(modules) - len(proved)
        if kept:
            with open(kept, "a") as file:
                file.write("".join(f"{module}\n" for module in proved))
        shutil.rmtree(room / "crates" / name / "out", ignore_errors=True)
    print(f"{len(types) - failed} of {len(types)} proved or refused")
    return 1 if failed else 0


if __name__ == "__main__":
    sys.exit(main())
