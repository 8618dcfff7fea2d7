#!/usr/bin/env python3
"""pages.py TOP ROOM [--unproved]: the comparisons of checks/pages.sh. TOP is the repository, as `rt ci` leaves it; ROOM an
empty folder but for a fresh copy of it, serde-content. With --unproved no program is run."""

import filecmp
import os
import re
import shutil
import subprocess
import sys
import textwrap

sys.dont_write_bytecode = True
from calling import stale  # noqa: E402
from examples import blocks_of, examples, files_below, pages_of, prose_of, read  # noqa: E402

TOP, ROOM = map(os.path.abspath, sys.argv[1:3])
UNPROVED = sys.argv[3:] == ["--unproved"]
CODE = ("rt", "antt", "md", "sh", "py", "txt", "edit")
faults = []


def fault(page, text):
    faults.append(f"{page}: {text}")


FILES = files_below(TOP)
PAGES = pages_of(FILES)
CALLING = [it for it in FILES if it.startswith("docs/calling/")]
ROOTS = [it for it in FILES if re.fullmatch(r"crates/\w+/src/lib\.rt", it)]
CRATES = re.findall(r"^(\w+):", read(f"{TOP}/crates.txt"), re.M)

# The most words of README.md, of any other page, and of all pages together, as `wc -w` counts them.
README_WORDS, PAGE_WORDS, ALL_WORDS = 1200, 2500, 19200


def anchors_of(text):
    """The anchors of a page's headings."""
    heads = re.findall(r"^#+ (.*)$", prose_of(text), re.M)
    return {re.sub(r"[^\w\- ]", "", it.lower()).replace(" ", "-") for it in heads}


def check_lengths():
    words = {page: len(read(f"{TOP}/{page}").split()) for page in PAGES}
    most = {page: PAGE_WORDS for page in PAGES} | {"README.md": README_WORDS, "all pages": ALL_WORDS}
    for page, count in [*words.items(), ("all pages", sum(words.values()))]:
        if count > most[page]:
            fault(page, f"{count} words, of at most {most[page]}")


def check_links():
    linked = {}
    for page in PAGES + CALLING:
        linked[page] = set()
        for to in re.findall(r"\]\(([^)\s]+)\)", prose_of(read(f"{TOP}/{page}"))):
            if "://" in to:
                continue
            path, _, anchor = to.partition("#")
            path = os.path.normpath(os.path.join(os.path.dirname(page), path)) if path else page
            if not os.path.exists(f"{TOP}/{path}"):
                fault(page, f"a link to {to}, which isn't there")
            elif anchor and anchor not in anchors_of(read(f"{TOP}/{path}")):
                fault(page, f"a link to {to}, a heading that isn't there")
            linked[page].add(path)
    reached, found = {"README.md"}, ["README.md"]
    for page in found:
        found += [it for it in linked[page] if it in linked and it not in reached]
        reached |= linked[page]
    for page in {*linked} - reached:
        fault(page, "no way of links leads here from README.md")


def check_calling():
    for page in stale():
        fault(page, "isn't what checks/pages/calling.py writes: run it")


def check_names():
    """A name in code type that is a file's, or a folder's with a slash at its end, is the end of some path."""
    ends = {f"/{it}" for it in FILES} | {f"/{os.path.dirname(it)}/" for it in FILES}
    for at in [*ends]:
        while "/" in at[1:-1]:
            at = at[: at.rstrip("/").rfind("/")] + "/"
            ends.add(at)
    for page in PAGES:
        for name in re.findall(r"`([\w./+-]+)`", prose_of(read(f"{TOP}/{page}"))):
            is_file = name.rpartition(".")[2] in CODE and "." in name
            if not (is_file or name.endswith("/")) or re.search(r"\b[A-Z]{4,}\b(?!\.md)", name):
                continue
            if not any(it.endswith("/" + name) for it in ends):
                fault(page, f"{name} is no file of the repository")


def undented(lines):
    return textwrap.dedent("\n".join(lines)).split("\n")


def stands_in(block, lines):
    """Whether the block's paragraphs stand in these lines, one after another."""
    at = 0
    for paragraph in [it.split("\n") for it in re.split(r"\n\n+", textwrap.dedent(block).strip("\n"))]:
        size, paragraph = len(paragraph), undented(paragraph)
        while at + size <= len(lines) and undented(lines[at : at + size]) != paragraph:
            at += 1
        if at + size > len(lines):
            return False
        at += size
    return True


def head_of(file):
    """What a root file says of its crate."""
    return "".join(re.findall(r"^//! ?(.*\n)", read(f"{TOP}/{file}"), re.M))


def check_blocks():
    texts = []
    for crate in CRATES:
        for file in FILES:
            if file.startswith(f"crates/{crate}/") and file.endswith((".rt", ".antt")):
                texts.append(read(f"{TOP}/{file}").split("\n"))
    for page, text in [*((it, read(f"{TOP}/{it}")) for it in PAGES), *((it, head_of(it)) for it in ROOTS)]:
        for word, block, _ in blocks_of(text):
            if word in ("rust", "text") and not any(stands_in(block, it) for it in texts):
                first = block.strip().split("\n")[0]
                fault(page, f"no proved crate has the block that begins with: {first}")


def run(words, folder, given=b""):
    """What a command writes to its standard output, and its status."""
    how = {"cwd": folder, "input": given, "stdout": subprocess.PIPE, "stderr": subprocess.PIPE}
    ran = subprocess.run(words, check=False, timeout=600, **how)
    return ran.stdout.decode(), ran.returncode, ran.stderr.decode()


def try_unproved(words, folder):
    """A run of `rt try`; once more where it judged nothing, which is its status 2: it has a limit of time."""
    wrote, status, errors = run(words, folder)
    return run(words, folder) if status == 2 else (wrote, status, errors)


OWN_TYPES = "docs/OWN_TYPES.md"
# What tools/new-project refuses: its words, and the line that it answers.
NOT_MADE = [
    (["My-Types"], "My-Types can't name a crate: use lowercase letters, digits and _, and a letter first"),
    (["struct"], "struct is a keyword: choose another name"),
    (["serde"], "Rattle has a library named serde: choose another name"),
    (["content_de"], "content_de is one of the libraries: choose another name"),
    (["notes", "mine"], "mine isn't empty: choose another folder"),
    (["notes", "serde-content/HANDLES"], "serde-content/HANDLES is a file: choose another folder"),
    (["notes", "serde-content/x"], "serde-content/x is inside this repository: choose one outside it, as ../x"),
]


def follow(blocks):
    """Runs the blocks of commands, one after another, as a reader does; whether each ended well."""
    folder = ROOM
    for word, block, _ in blocks:
        if word != "sh":
            continue
        if UNPROVED:
            block = re.sub(r"^rt try .*\n", "", block, flags=re.M)
        wrote, status, said = try_unproved(["bash", "-euc", block + "pwd"], folder)
        if status:
            fault(OWN_TYPES, f"a block of commands fails: {block.strip()}: {(wrote + said).strip()[-500:]}")
            return False
        folder = wrote.splitlines()[-1]
    return True


def projects():
    """The repositories that the page's commands made, each with its crate."""
    made = [f"{ROOM}/{it}" for it in sorted(os.listdir(ROOM)) if it != "serde-content"]
    return [(it, re.findall(r"^(\w+):", read(f"{it}/crates.txt"), re.M)) for it in made]


def compare_files(ours, theirs, where):
    """Both are folders: the files are the same ones, byte for byte."""
    names = {*files_below(ours)}, {*files_below(theirs)}
    for it in sorted(names[0] ^ names[1]):
        fault(OWN_TYPES, f"{it} of {where} is in {'the repository' if it in names[0] else 'what is made'} alone")
    for it in sorted(names[0] & names[1]):
        if not filecmp.cmp(f"{ours}/{it}", f"{theirs}/{it}", shallow=False):
            fault(OWN_TYPES, f"{it} of {where} differs in what is made")


def check_copies(project, crates):
    """What a project has besides its crate is ours, and so is each line of its crates.txt about a crate of ours."""
    for licence in ("LICENSE-APACHE", "LICENSE-MIT"):
        os.rename(f"{project}/crates/serde_content/{licence}", f"{project}/{licence}")
    for file in ("HANDLES", ".gitignore", "tools/derive", "tools/warm", "LICENSE-APACHE", "LICENSE-MIT"):
        if not filecmp.cmp(f"{TOP}/{file}", f"{project}/{file}", shallow=False):
            fault(OWN_TYPES, f"{file} differs in what is made")
    for folder in ["tools/serde_derive", *[f"crates/{it}" for it in crates[:-1]]]:
        compare_files(f"{TOP}/{folder}", f"{project}/{folder}", folder)
    names = [".ci/run", ".gitignore", "HANDLES", "LICENSE-APACHE", "LICENSE-MIT", "crates.txt"]
    if sorted(it for it in files_below(project) if not it.startswith(("crates/", "tools/"))) != names:
        fault(OWN_TYPES, "what is made has other files at the top")
    if sorted(os.listdir(f"{project}/crates")) != sorted(crates):
        fault(OWN_TYPES, "crates.txt of what is made has other crates than the folder")
    ours = read(f"{TOP}/crates.txt").splitlines()
    for line in read(f"{project}/crates.txt").splitlines():
        if line not in ours and (line.partition(":")[0] in CRATES or ":" not in line):
            fault(OWN_TYPES, f"crates.txt has no line: {line}")


def check_gate(project, crate):
    """The gate is `rt ci` and a comparison of the module, which runs here; then the tests run, unproved."""
    first, _, then = read(f"{project}/.ci/run").strip().partition(" && ")
    _, status, said = run(["bash", "-euc", then], project)
    if first != "rt ci" or "--check" not in then or status:
        fault(OWN_TYPES, f"what is made has the gate {first} && {then}: {said.strip()}")
    if UNPROVED:
        return
    tests = [len(re.findall(r"^#\[test\]$", read(f"{project}/crates/{crate}/{it}"), re.M))
             for it in files_below(f"{project}/crates/{crate}") if it.endswith(".rt")]
    wrote, status, said = try_unproved(["rt", "try", "--test"], f"{project}/crates/{crate}")
    if status or not sum(tests) or f"test result: ok. {sum(tests)} passed" not in wrote + said:
        fault(OWN_TYPES, f"rt try --test ends with status {status} in the crate {crate}: {(wrote + said)[-500:]}")


def check_own_blocks(blocks):
    """The page's blocks are of crates/shapes: those below `## A struct` are point.rt, byte for byte."""
    shapes = [read(f"{TOP}/crates/shapes/{it}") for it in files_below(f"{TOP}/crates/shapes")]
    section, point = "", []
    for word, block, before in blocks:
        section = (re.findall(r"^## (.*)$", before, re.M) or [section])[-1]
        if word in ("rs", "rust") and not any(block in it for it in shapes):
            fault(OWN_TYPES, f"crates/shapes has no block that begins with: {block.strip().splitlines()[0]}")
        if word == "rust" and section == "A struct":
            point.append(block)
    if "\n".join(point) != read(f"{TOP}/crates/shapes/src/point.rt"):
        fault(OWN_TYPES, "the blocks of a struct aren't src/point.rt")


def check_refusals():
    """What tools/new-project refuses it says in one line, and leaves nothing."""
    tool, before = f"{ROOM}/serde-content/tools/new-project", sorted(files_below(ROOM))
    no_rt = {**os.environ, "PATH": "/nowhere"}
    tries = [(words, line, None) for words, line in NOT_MADE]
    how = {"cwd": ROOM, "capture_output": True, "text": True, "check": False}
    for words, line, environment in [*tries, (["notes"], "`rt` is not on the path: install Rattle's kit", no_rt)]:
        ran = subprocess.run([sys.executable, tool, *words], env=environment, **how)
        if (ran.returncode, ran.stdout, ran.stderr) != (1, "", f"new-project: {line}\n"):
            fault(OWN_TYPES, f"tools/new-project {' '.join(words)} says: {ran.stdout}{ran.stderr}")
    if sorted(files_below(ROOM)) != before:
        fault(OWN_TYPES, "tools/new-project leaves files where it refuses")


def check_own_types():
    """What the page's commands make: the crate shapes is ours, and so are the libraries, which `rt ci` proved."""
    blocks = blocks_of(read(f"{TOP}/{OWN_TYPES}"))
    check_own_blocks(blocks)
    if not follow(blocks):
        return
    check_refusals()
    made = projects()
    if [crates[-1] for _, crates in made] != ["shapes", "parcels"]:
        return fault(OWN_TYPES, f"its commands make {made}")
    for project, crates in made:
        check_gate(project, crates[-1])
        check_copies(project, crates)
    compare_files(f"{TOP}/crates/shapes", f"{made[0][0]}/crates/shapes", "crates/shapes")
    module = read(f"{made[1][0]}/crates/parcels/src/types.rt").replace("Rattle.parcels.", "Rattle.check_derive.")
    items = module.partition("\n\n/// ")[2]
    if not items or not stands_in(f"/// {items}", read(f"{TOP}/crates/check_derive/src/types.rt").split("\n")):
        fault(OWN_TYPES, "with --cbor the types are not those of crates/check_derive/src/types.rt, which are proved")


def check_copying():
    """The commands of docs/CALLING.md, but for the proofs, put libraries and all that they use into a repository that has
    a crate."""
    page, mine = "docs/CALLING.md", f"{ROOM}/mine"
    os.makedirs(f"{mine}/crates")
    with open(f"{mine}/crates.txt", "w", encoding="utf-8") as it:
        it.write("notes: serde_content\n")
    block = next(it[1] for it in blocks_of(read(f"{TOP}/{page}")) if it[0] == "sh")
    wrote, status, said = run(["bash", "-euc", re.sub(r"^tools/warm .*\n", "", block, flags=re.M)], ROOM)
    if status:
        fault(page, f"its commands fail: {(wrote + said).strip()[-500:]}")
    uses = dict(it.split(":") for it in read(f"{mine}/crates.txt").splitlines())
    for crate in uses.keys() - {"notes"}:
        ours, theirs = f"{TOP}/crates/{crate}", f"{mine}/crates/{crate}"
        differs = run(["diff", "-rq", "-x", "out", "-x", "LICENSE-*", ours, theirs], TOP)
        if differs[1] or f"{crate}:{uses[crate]}" not in read(f"{TOP}/crates.txt").splitlines():
            fault(page, f"its commands make another {crate}: {''.join(differs[::2]).strip()[-500:]}")
    for used in {it for names in uses.values() for it in names.split()} - uses.keys():
        fault(page, f"its commands leave out {used}")
    if not os.path.isfile(f"{mine}/HANDLES"):
        fault(page, "its commands make no HANDLES")
    shutil.rmtree(mine)


def check_program():
    """The examples of programs: each gives the answer that its page shows."""
    tried = [*examples(TOP)]
    for it in tried:
        wrote, _, _ = run([f"{TOP}/crates/{it.program}/out/{it.program}", *it.arguments], TOP, it.text)
        if wrote != it.wanted:
            fault(it.page, f"{it.shown} gives {wrote.strip()}, and not {it.wanted.strip()}")
    if not tried:
        fault("docs/CALLS.md", "no example of lines was found")
    return len(tried)


def check_readme():
    """The first command of the readme writes what its comment says."""
    word, block, _ = next(it for it in blocks_of(read(f"{TOP}/README.md")) if it[0] == "sh")
    command, _, said = block.split("\n")[0].partition("#")
    wrote, status, errors = try_unproved(["bash", "-c", command], f"{ROOM}/serde-content")
    if status or wrote.strip() != said.rpartition(": ")[2]:
        ended = f"writes {wrote.strip()} and ends with status {status}: {errors.strip()[-300:]}"
        fault("README.md", f"{command.strip()} {ended}")
    for path in re.findall(r"^(?:sh )?([\w.-]+/\S+)", block, re.M):
        if not os.path.isfile(f"{TOP}/{path}"):
            fault("README.md", f"{path} isn't there")


def main():
    check_lengths()
    check_links()
    check_calling()
    check_names()
    check_blocks()
    tried = 0
    if not UNPROVED:
        tried = check_program()
        check_readme()
    check_copying()
    check_own_types()
    for it in faults:
        print(it)
    print(f"{len(PAGES)} pages, {tried} examples of programs: {len(faults)} faults")
    sys.exit(1 if faults else 0)


main()
