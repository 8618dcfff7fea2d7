#!/usr/bin/env bash
# checks/pages.sh [--unproved]: compares the pages (README.md, CHANGELOG.md, CONTRIBUTING.md, docs/, bench/README.md and
# each crate's README.md) with the repository, and ends with status 1 where one of these fails:
# - README.md has at most 1,200 words, any other page at most 2,500, and all pages together at most 19,200. Not counted is
#   docs/calling/: its pages are what checks/pages/calling.py writes from the sources.
# - Each relative link leads to a file, and where it names a heading, to one of that page; each file that a page names in
#   code type is there; each page can be reached from README.md.
# - Each block of Rust or of definitions is in one file of a crate of crates.txt, word for word, paragraph by paragraph and
#   in its order: `rt ci` proves that crate and runs its tests.
# - The commands of docs/OWN_TYPES.md run in their order, beside a fresh copy of this repository, and make two with
#   tools/new-project. The crate of the first is crates/shapes, byte for byte; the libraries, the tools and the lines of
#   crates.txt are ours: so what `rt ci` proved is what a reader gets. The second is made with --cbor; its types are those
#   of crates/check_derive. In both the tests run, unproved, and the gate's comparison of the module passes.
# - The commands of docs/CALLING.md, but for the proofs, put the libraries into a repository: ours, and all that they use.
# - The blocks of OWN_TYPES are in crates/shapes, byte for byte; those below "A struct" are the whole of src/point.rt.
# - tools/new-project refuses a name that no crate can have, a folder that isn't empty and a path without `rt`, each in
#   one line, and leaves no file.
# - The program, run on the lines of each example, gives the answer in the same row; so do the commands after a $.
# It runs the programs that `rt ci` leaves in crates/content_cli/out and crates/cbor_cli/out, needs python3 and git, and
# takes three processor minutes. With --unproved it runs no program and no test, and takes half a minute: tools/test tries
# the examples of programs by itself.
set -eu
top=$(cd "$(dirname "$0")/.." && pwd)
room=$(mktemp -d)
trap 'rm -rf "$room"' EXIT

mkdir "$room/serde-content"
tar -C "$top" --exclude=out --exclude=.git -cf - . | tar -C "$room/serde-content" -xf -
python3 "$top/checks/pages/pages.py" "$top" "$room" "$@"
