#!/usr/bin/env python3
"""edits.py TOP [--gate | CRATE .. | CRATE/EDIT ..]: the work of checks/edits.sh, which says what it does."""

import collections
import concurrent.futures
import glob
import os
import re
import shutil
import subprocess
import sys
import tempfile

TOP, NAMES = sys.argv[1], sys.argv[2:]
JOBS = int(os.environ.get("JOBS", 2))
GATE = NAMES == ["--gate"]
# whole crates are tried, or the gate's edits: what goes together is tried together
TOGETHER = all("/" not in it for it in NAMES)

# One replacement: its file, where the old text begins and ends, the new text, and where its function begins.
Change = collections.namedtuple("Change", "path begin end new function")


def read(path):
    with open(path, encoding="utf-8") as it:
        return it.read()


def write(path, text):
    with open(path, "w", encoding="utf-8") as it:
        it.write(text)


def function_at(text, place):
    """Where the function begins whose body has this place, or none."""
    heads = list(re.finditer(r"^( *)(?:pub(?:\([a-z]+\))? |const |final )*fn ", text, re.M))
    for head, after in zip(heads, [it.start() for it in heads[1:]] + [len(text)]):
        opening = re.compile(rf"^{head[1]}(\S.*)?{{$", re.M).search(text, head.start(), after)
        if opening and opening.end() <= place <= text.find(f"\n{head[1]}}}\n", opening.end()):
            return head.start()
    return None


class Edit:
    """A group of wrong bodies, and the functions that the check must refuse."""

    def __init__(self, name):
        self.name, self.crate = name, name.split("/")[0]
        file = f"{TOP}/checks/edits/{name}"
        if not os.path.isfile(f"{file}.md"):
            sys.exit(f"{name}: no list of what it must refuse")
        self.listed = re.findall(r"^- `(.*)`$", read(f"{file}.md"), re.M)
        self.pairs, path, old = [], None, None
        for line in read(f"{file}.edit").split("\n"):
            if line.startswith("file: "):
                path = line[6:].strip()
            elif line.startswith("old: "):
                old = line[5:]
            elif line.startswith("new:"):
                self.pairs.append((path, old, line[4:].removeprefix(" ")))
        self.changes = self.changes_of_bodies()
        # what is not settled yet, the edits with which it can't be tried, and what is wrong
        self.left, self.apart, self.faults = list(self.listed), set(), []

    def changes_of_bodies(self):
        """Its changes, or none where it changes more than bodies, or one text twice."""
        changes = []
        for path, old, new in self.pairs:
            text = read(f"{TOP}/crates/{self.crate}/{path}")
            begin, end = text.find(old), text.find(old) + len(old)
            function = function_at(text, end) if path.startswith("src/") else None
            if text.count(old) != 1 or function is None or any(it.path == path and begin < it.end and it.begin < end for it in changes):
                return None
            changes.append(Change(path, begin, end, new, function))
        return changes

    def goes_with(self, other):
        if None in (self.changes, other.changes) or self.name in other.apart or other.name in self.apart:
            return False
        return not {(it.path, it.function) for it in self.changes} & {(it.path, it.function) for it in other.changes}


def mark_built(room):
    """Marks the libraries that `rt ci` left built as built, as `rt lib` does, so that a check over them doesn't prove them
    again. If the kit's module isn't there or is another one, they are proved."""
    sys.path.insert(0, os.path.dirname(os.path.realpath(shutil.which("rt") or "")))
    try:
        import rtlib

        known = {}
        for folder in glob.glob(f"{room}/crates/*/out/rlib"):
            if not os.path.exists(f"{folder}/stamp"):
                write(f"{folder}/stamp", rtlib.Crate(folder.removesuffix("/out/rlib"), room, known).stamp())
    except (ImportError, AttributeError, TypeError) as error:
        print(f"the libraries are proved again: {error}", flush=True)


def plant(edits, folder):
    """Applies edits to a crate. One alone may change what its earlier pairs made. Says why one can't be applied."""
    if len(edits) > 1:
        for it in sorted((it for edit in edits for it in edit.changes), reverse=True):
            text = read(f"{folder}/{it.path}")
            write(f"{folder}/{it.path}", text[: it.begin] + it.new + text[it.end :])
        return None
    for path, old, new in edits[0].pairs:
        text = read(f"{folder}/{path}")
        if text.count(old) != 1:
            return f"an 'old:' text is in {path} {text.count(old)} times: {old}"
        write(f"{folder}/{path}", text.replace(old, new))


def check(edits):
    """What the check says of the functions that are not settled, with these edits in one copy of their crate."""
    crate, own = edits[0].crate, f"{TOP}/crates/{edits[0].crate}/"

    def copy(one, other):
        # what was proved is linked, since it is much, and a check never writes into it
        if not one.startswith(own) or one.startswith(f"{own}out/rlib/") or one.endswith(".oantt"):
            try:
                return os.link(one, other)
            except OSError:
                pass
        return shutil.copy2(one, other)

    with tempfile.TemporaryDirectory() as room:
        shutil.copytree(f"{TOP}/crates", f"{room}/crates", symlinks=True, copy_function=copy)
        for it in ("crates.txt", "HANDLES"):
            shutil.copy2(f"{TOP}/{it}", room)
        if GATE:
            mark_built(room)
        why = plant(edits, f"{room}/crates/{crate}")
        only = [word for edit in edits for it in edit.left for word in ("--only", it)]
        return why or subprocess.run(
            ["rt", "check", "--jobs", "2", *only],
            cwd=f"{room}/crates/{crate}",
            stdin=subprocess.DEVNULL,
            stdout=subprocess.PIPE,
            stderr=subprocess.STDOUT,
            encoding="utf-8",
            errors="replace",
        ).stdout


def fault_of(function, log):
    """Why the check doesn't refuse this function for itself, or none, with what it said of it."""
    said = re.search(rf"^fn {re.escape(function)}: (.*)$", log, re.M)
    if not said:
        return "the check says nothing of", ""
    if said[1].startswith("proved"):
        return "proved, and must be refused", ""
    # what calls a function that is refused is not proved either, nor is the rest of its cycle of calls
    if re.match("no proof: (it calls|in) ", said[1]) or "/+" in said[1] and f"`{function.split('::')[-1]}-" not in log:
        return "not refused for itself", said[1]
    return None, ""


def judge(edits):
    """Tries these edits together. What one of the others may hide stays unsettled, and goes apart from those."""
    log = check(edits)
    is_silent = not re.search("^fn ", log, re.M)
    if is_silent and len(edits) > 1:
        # one of them doesn't compile
        half = len(edits) // 2
        judge(edits[:half])
        return judge(edits[half:])
    for edit in edits:
        others = [it for it in edits if it is not edit]
        for function in edit.left[:]:
            why, said = fault_of(function, log)
            if why and others:
                hiding = {it.name for it in others if any(f"`{function}`" in said for function in it.listed)}
                edit.apart |= hiding or {it.name for it in others}
            else:
                edit.left.remove(function)
                edit.faults += [f"{why}: {function}"] if why else []
        if is_silent:
            edit.faults += log.split("\n")[-8:]
        if not edit.left:
            for it in edit.faults or ["each is refused"]:
                print(f"{edit.name}: {it}", flush=True)


def try_crate(edits):
    """Tries all edits of a crate, as many together as go together."""
    while left := [it for it in edits if it.left]:
        batches = []
        for edit in left:
            fitting = [it for it in batches if TOGETHER and all(edit.goes_with(other) for other in it)]
            if fitting:
                fitting[0].append(edit)
            else:
                batches.append([edit])
        for it in batches:
            judge(it)


def chosen():
    """The names of the edits to try: the gate's, those given, or all of the given crates or of every crate."""
    if GATE:
        return read(f"{TOP}/checks/edits/gate").split()
    if not TOGETHER:
        return NAMES
    found = sorted(glob.glob(f"{TOP}/checks/edits/*/*.edit"))
    names = [re.sub(r".*/(\w+/\w+)\.edit$", r"\1", it) for it in found]
    if unknown := set(NAMES) - {it.split("/")[0] for it in names}:
        sys.exit(f"no edits of {', '.join(sorted(unknown))}")
    return [it for it in names if not NAMES or it.split("/")[0] in NAMES]


def main():
    crates = collections.defaultdict(list)
    for it in chosen():
        crates[it.split("/")[0]].append(Edit(it))
    with concurrent.futures.ThreadPoolExecutor(JOBS) as pool:
        list(pool.map(try_crate, crates.values()))
    edits = [it for crate in crates.values() for it in crate]
    refused = [it for it in edits if not it.faults]
    print(f"{len(refused)} of {len(edits)} edits refused, with {sum(len(it.listed) for it in refused)} functions")
    return len(refused) < len(edits)


if __name__ == "__main__":
    sys.exit(main())
