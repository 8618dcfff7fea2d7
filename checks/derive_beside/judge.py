"""judge.py programs DRIVER HERE FILE..: writes the parts of the Rust program in DRIVER and of ours in HERE that depend
on the types that the files declare.
judge.py cases ROOM SEED COUNT FILE..: writes that many cases to ROOM/cases.
judge.py rows ROOM SEED COUNT FILE..: writes to ROOM/rows/ what our program must answer, by Serde's answers in
ROOM/answers. Where the rules make Serde's answer of a case without any line of docs/DIFFERENCES.md, ours must be what
they make of it with all lines; else it must be Serde's.
judge.py count ROOM: counts the rows that agree, by line, and those that differ by ROOM/said, what our program said, and
ends with status 1 where there are any, or where none falls under some line."""
import sys
from pathlib import Path

sys.dont_write_bytecode = True

from cases import Maker, made  # noqa: E402
from enums import Enums  # noqa: E402
from lines import ALL  # noqa: E402
from programs import write_programs  # noqa: E402
from shapes import TOP, alone, shapes_of  # noqa: E402
from source import Refused, Source  # noqa: E402
from trees import printed, row  # noqa: E402

sys.path.insert(0, str(TOP / "checks" / "beside"))

from verdicts import check_page, count, lines_of, write_rows  # noqa: E402


def answer(shapes, case, on):
    """What a case is answered by the rules, with these lines."""
    name, flags, tree = case
    try:
        return "ok " + row(Enums(shapes, on).item(shapes[name], Source(tree, "c" in flags, "h" in flags)))
    except Refused as refused:
        return f"refused {printed(str(refused))}"


def judged(shapes, case, serde):
    """Our answer, and the lines by which it isn't Serde's."""
    if answer(shapes, case, frozenset()) != serde:
        return serde, []
    ours = answer(shapes, case, frozenset(ALL))
    return ours, [] if ours == serde else needed(shapes, case, ours)


def needed(shapes, case, ours):
    """As few lines as make our answer."""
    lines = list(ALL)
    for line in ALL:
        fewer = [other for other in lines if other != line]
        if answer(shapes, case, frozenset(fewer)) == ours:
            lines = fewer
    return lines


def count_all(room):
    """Counts, and prints how many cases Serde accepts, and each line that has no case."""
    answers = lines_of(room / "answers")
    print(f"{len(answers)} cases, of which Serde accepts {sum(said.startswith('ok ') for said in answers)}")
    status = count(room, ALL)
    found = {start for starts in lines_of(room / "named") for start in starts.split("\t")}
    missing = [start for start in ALL if start not in found]
    for start in missing:
        print(f"no case falls under the line: {start}")
    return 1 if missing else status


def main():
    """Does what it is told."""
    command, *words = sys.argv[1:]
    room = Path(words[0])
    if command == "count":
        return count_all(room)
    if command == "programs":
        files = list(map(Path, words[2:]))
        shapes = shapes_of(files)
        write_programs(files, [item.name for item in alone(shapes)], Maker(shapes).names, room, Path(words[1]))
        return 0
    shapes = shapes_of(words[3:])
    cases = list(made(shapes, *map(int, words[1:3])))
    written = ["\t".join((name, flags, row(tree))) for name, flags, tree in cases]
    if command == "cases":
        (room / "cases").write_text("".join(line + "\n" for line in written))
        return 0
    check_page(TOP / "docs" / "DIFFERENCES.md", ALL)
    answers = lines_of(room / "answers")
    write_rows(room, written, (judged(shapes, case, serde) for case, serde in zip(cases, answers, strict=True)))
    return 0


sys.exit(main())
