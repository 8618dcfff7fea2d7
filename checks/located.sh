#!/usr/bin/env bash
# checks/located.sh [--write]: compares the paths at which rows of crates/check_typed/stdin are refused, and those that Serde's
# derives and serde_path_to_error give, with the table checks/located/paths.tsv, or writes them there. It stands outside the
# gate, proves and runs nothing of ours (the gate runs the rows), and takes half a minute. It needs cargo, python3, rsync and
# Debian's librust-serde-dev, librust-serde-derive-dev, librust-serde-json-dev and librust-serde-path-to-error-dev.
set -euo pipefail
top=$(cd "$(dirname "$0")/.." && pwd)
parts=$top/checks/located
cases=$top/crates/check_typed/stdin
room=$(mktemp -d)
trap 'rm -rf "$room"' EXIT

# shellcheck source=bench/common.sh
. "$top/bench/common.sh"

place_driver "$parts/beside"
cp "$top"/crates/check_derive/{choices,inlined,places,sorts,types}.rs "$top/crates/check_fields/attributes.rs" "$room/driver/src/"
python3 "$parts/located.py" cases "$cases" > "$room/cases"
(cd "$room/driver" && cargo run --offline --quiet) < "$room/cases" > "$room/serde"
version=$(sed -n '/name = "serde_path_to_error"/{n;s/.*"\(.*\)"/\1/p}' "$room/driver/Cargo.lock")
python3 "$parts/located.py" table "$cases" "$room/serde" "$version" > "$room/paths.tsv"
[ "${1-}" != --write ] || cp "$room/paths.tsv" "$parts/paths.tsv"
diff "$parts/paths.tsv" "$room/paths.tsv"
echo "of $(grep -c $'\t' "$room/paths.tsv") paths $(grep -c $'\tthe same$' "$room/paths.tsv") are Serde's, the others as the table has them"
