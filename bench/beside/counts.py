#!/usr/bin/env python3
"""counts.py WHAT BENCH FOLDER SHAPE,..: the instructions a node of each phase of WHAT (beside or
cbor), counted by callgrind: of the Rust crate, of ours, and the ratio. For beside also the bytes a
node of the heap, counted by DHAT: what the value keeps, and the peak while it is made."""

import glob
import os
import re
import subprocess
import sys

# None: between two marks, but not printed.
PHASES = {
    "beside": ["serialize", "copy", "==", "cmp", "into_owned", "drop", "unexpected", "print",
               "drop the error", None, "read"],
    "cbor": ["data to bytes", "bytes to value", "value to bytes", None, "bytes to data"],
}
# How much data of each shape, and how many nodes its tree has: each Value is one, those of keys of
# maps too. Names of fields are none. A point has 3, and a record 13, or 14 where it has a limit.
SHAPES = {"points": (1000, 3001), "nest": (1000, 1111), "map": (1000, 2001), "tree": (10000, 10000),
          "records": (1000, 13501), "by_hand": (1000, 3001)}


def count(phases, bench, folder, who, shape):
    """The instructions a node of each phase."""
    path = f"{folder}/{who}.{shape}"
    for old in glob.glob(f"{path}*"):
        os.remove(old)
    size, nodes = SHAPES[shape]
    subprocess.run(
        ["valgrind", "--tool=callgrind", "--dump-before=port_mark",
         f"--callgrind-out-file={path}", bench, who, shape, str(size)],
        check=True, stdout=subprocess.DEVNULL, stderr=subprocess.DEVNULL)
    counts = {}
    for phase, name in enumerate(phases):
        if name is None:
            continue
        with open(f"{path}.{phase + 2}", encoding="utf-8") as dump:
            total = re.search(r"^(?:totals|summary): (\d+)", dump.read(), re.M)
        counts[name] = int(total.group(1)) / nodes
    return counts


def bytes_until(mark, bench, who, shape):
    """The bytes of the heap at a mark, and the peak until then."""
    run = subprocess.run(
        ["valgrind", "--tool=dhat", "--dhat-out-file=/dev/null", bench, who, shape,
         str(SHAPES[shape][0]), str(mark)],
        check=True, stdout=subprocess.DEVNULL, stderr=subprocess.PIPE, text=True)
    end, peak = (int(re.search(rf"At t-{time}: +([0-9,]+) bytes", run.stderr)[1].replace(",", ""))
                 for time in ("end", "gmax"))
    return end, peak


def memory(bench, who, shape):
    """The bytes a node of the first phase, beyond those of the data."""
    data, peak_before = bytes_until(0, bench, who, shape)
    value, peak = bytes_until(1, bench, who, shape)
    assert peak > peak_before, "the peak is that of making the data"
    nodes = SHAPES[shape][1]
    return {"value, bytes": (value - data) / nodes, "peak, bytes": (peak - data) / nodes}


def main():
    what, bench, folder, shapes = sys.argv[1:5]
    phases = PHASES[what]
    os.makedirs(folder, exist_ok=True)
    for shape in shapes.split(","):
        rust, ours = (count(phases, bench, folder, who, shape) for who in ("rust", "ours"))
        if what == "beside":
            rust.update(memory(bench, "rust", shape))
            ours.update(memory(bench, "ours", shape))
        for name in rust:
            ratio = ours[name] / rust[name]
            print(f"{shape:8}{name:16}{rust[name]:10.1f}{ours[name]:10.1f}{ratio:8.2f}")


main()
