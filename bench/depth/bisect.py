#!/usr/bin/env python3
"""bisect.py PROGRAM [ours]: the greatest depth of each operation at each kind of nesting, found by halving,
on a stack of 8 MB: the program does one operation on so many levels, and writes 'done' at its end."""

import subprocess
import sys

OPERATIONS = ["drop", "try_clone", "into_owned", "into_found", "print", "==", "cmp", "{:?}", "serialize"]
OURS = ["encode", "decode", "merge", "Value"]
KINDS = ["some", "seq", "tuple", "map_value", "map_key", "newtype_struct", "tuple_struct", "struct",
         "newtype_variant", "tuple_variant", "struct_variant"]
MOST = 1 << 16


def bears(program, operation, kind, levels):
    """Whether the operation comes to its end."""
    run = subprocess.run(
        ["bash", "-c", 'ulimit -c 0 -s 8192; exec "$@"', "", program, operation, kind, str(levels)],
        capture_output=True, text=True, check=False)
    return run.stdout == "done\n"


def greatest(program, operation, kind):
    """The greatest depth that it bears, to a hundredth."""
    low, high = 0, MOST
    if bears(program, operation, kind, high):
        return high
    while high - low > max(1, low // 100):
        middle = (low + high) // 2
        if bears(program, operation, kind, middle):
            low = middle
        else:
            high = middle
    return low


def main():
    program, operations = sys.argv[1], OPERATIONS + OURS * (len(sys.argv) > 2)
    print(f"{'':16}" + "".join(f"{operation:>12}" for operation in operations))
    for kind in KINDS:
        depths = [greatest(program, operation, kind) for operation in operations]
        print(f"{kind:16}" + "".join(f"{depth:12}" for depth in depths), flush=True)


main()
