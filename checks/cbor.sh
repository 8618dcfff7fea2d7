#!/usr/bin/env bash
# checks/cbor.sh [SEED]: makes 10,000 random values with Debian's python3-cbor2, half of them in its own coding and half
# with longer heads, chunks and indefinite lengths, and compares what cbor_cli prints of each, the value and its
# shortest coding, with what cbor2 says. Then it makes 10,000 random trees as lines of calls, and compares the bytes
# that cbor_cli writes of each with those that cbor2 writes. Last it makes 20,000 lines, half of them the values above
# damaged and half random bytes, and compares whether, where and why cbor_cli refuses each with what a scanner in
# Python says. It stands outside the gate, on what `rt ci` leaves in crates/cbor_cli/out, and takes seconds.
set -eu
top=$(cd "$(dirname "$0")/.." && pwd)
program=$top/crates/cbor_cli/out/cbor_cli
room=$(mktemp -d)
trap 'rm -rf "$room"' EXIT

# shellcheck source=bench/common.sh
. "$top/bench/common.sh"
[ -x "$program" ] || lacks "$program" "'rt ci' builds it"
need python3-cbor2

/usr/bin/python3 "$top/checks/cbor/values.py" make "${1:-1}" 10000 "$room"
"$program" < "$room/input" > "$room/answers"
/usr/bin/python3 "$top/checks/cbor/values.py" compare "$room"
/usr/bin/python3 "$top/checks/cbor/values.py" make_trees "${1:-1}" 10000 "$room"
"$program" < "$room/calls" > "$room/written"
/usr/bin/python3 "$top/checks/cbor/values.py" compare_trees "$room"
/usr/bin/python3 "$top/checks/cbor/places.py" make "${1:-1}" 20000 "$room"
"$program" < "$room/damaged" > "$room/refusals"
/usr/bin/python3 "$top/checks/cbor/places.py" compare "$room"
