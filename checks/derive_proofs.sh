#!/usr/bin/env bash
# checks/derive_proofs.sh [COUNT [SEED] | random SEED [COUNT] | NAME ..]: whether `rt check` proves what tools/derive writes,
# for the types of checks/derive/matrix.py: COUNT of them, drawn by SEED, those of these names, or all; a name may be one of
# the sixty declarations too; `random` makes 60 types, or COUNT, of a SEED (checks/derive/randoms.py), of which a quarter is
# refused. It prints each type that is not proved, with the first goal that fails, and the seconds of each crate of
# sixteen types. It works in a scratch repository on the libraries as they are built, so prove these first (tools/warm
# --nested). All types take three processor hours: with PROVED=FILE it adds the names of those that are proved to this file,
# and passes over those that are in it. With CBOR=1 they get `--cbor` (tools/warm --cbor --nested); JOBS=1 checks with one
# job in place of two. Its status is 1 where one is not proved.
set -eu
top=$(cd "$(dirname "$0")/.." && pwd)
room=$(mktemp -d)
trap 'rm -rf "$room"' EXIT
python3 "$top/checks/derive/proofs.py" "$top" "$room" ${CBOR:+--cbor} "$@"
