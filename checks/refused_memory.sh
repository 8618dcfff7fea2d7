#!/usr/bin/env bash
# checks/refused_memory.sh [FOLDER]: runs the programs that `rt ci` leaves in crates/*/out, or those
# of FOLDER, on small inputs whose answers are stored (checks/refused/lines, calls and pretty,
# crates/*/stdin and stdout): with ample memory; once for each allocation, refused, and once for each
# from which on all are; once for each read and each write, failed; and with all reads or writes
# short. A run must end in the stored answer, one with a refusal in that or in `out of memory`, one
# with a failure in the answer to that; and leave no block unfreed.
# Then it holds the bytes that each sort of operation asks for, on inputs that grow, against a bound
# (checks/refused/bounds); SHOW=1 prints them.
# It names each run that ends otherwise, and ends with status 1 where one does. It needs a C
# compiler ($CC, cc, or the kit's clang) and python3, and takes about a minute.
set -eu
top=$(cd "$(dirname "$0")/.." && pwd)
room=$(mktemp -d)
trap 'rm -rf "$room"' EXIT

flags=(-O2 -shared -fPIC -nostdlib -o "$room/shim.so" "$top/checks/refused/shim.c")
if command -v "${CC:-cc}" > /dev/null; then
    "${CC:-cc}" "${flags[@]}"
else
    /opt/rattle/toolchain/bin/clang -fuse-ld=lld "${flags[@]}"
fi
python3 "$top/checks/refused/tries.py" "$top" "$room" "${1-}"
