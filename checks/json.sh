#!/usr/bin/env bash
# checks/json.sh [SEED]: makes 20,000 random trees as lines of words, and compares the two texts that content_json writes
# of each, or the key that it refuses, with what python3's json and our rules for keys say, and these with what Rust's
# serde_json writes; keys that are booleans or `Some`, which serde_json 1.0.87 refuses, it gets as texts. Then it makes
# 20,000 texts, half of them damaged, and compares whether content_json decodes each, its value, and the place of the
# first wrong byte with what python3's json and an automaton in Python say. It stands outside the gate, proves nothing,
# needs rsync, python3, cargo and Debian's librust-serde-json-dev, and takes two minutes.
set -euo pipefail
top=$(cd "$(dirname "$0")/.." && pwd)
parts=$top/checks/json
room=$(mktemp -d)
trap 'rm -rf "$room"' EXIT

# shellcheck source=bench/common.sh
. "$top/bench/common.sh"
need rsync python3 cargo librust-serde-dev librust-serde-json-dev

place_ours json_texts "$parts/here" 'json_texts: content_json content_tree'
python3 "$parts/trees.py" make "${1:-1}" 20000 "$room"
(cd "$room/ours/crates/json_texts" && rt try --steps 1 --seconds 300 < "$room/lines") \
    > "$room/here" 2> "$room/log" || { tail -n 5 "$room/log"; exit 1; }
python3 "$parts/trees.py" compare "$room"
place_driver "$parts/beside"
(cd "$room/driver" && cargo build -q --offline --release && ./target/release/json_beside keys < "$room/lines") \
    > "$room/beside" 2> "$room/log" || { tail -n 5 "$room/log"; exit 1; }
python3 "$parts/trees.py" beside "$room"
python3 "$parts/texts.py" make "${1:-1}" 20000 "$room"
(cd "$room/ours/crates/json_texts" && rt try --steps 1 --seconds 300 < "$room/texts") \
    > "$room/read" 2> "$room/log" || { tail -n 5 "$room/log"; exit 1; }
python3 "$parts/texts.py" compare "$room"
