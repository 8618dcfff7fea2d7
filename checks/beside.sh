#!/usr/bin/env bash
# checks/beside.sh CRATE ROOM [SEED]: makes 20,000 random lists of calls, 50,000 random reads (requests, typed reads,
# accesses) and 25,000 copies, comparisons, printed images and trees sent to a serialiser, asks the Rust crate
# serde-content 0.1.2, whose source is in the folder CRATE, and lets crates/check_rows compare its answers with ours.
# It prints how many are the same, how many differ as a line of docs/DIFFERENCES.md says, for each line, and how many
# differ otherwise: the first ten of these, and status 1. Some 7,000 of the lists can't be made by Serde's traits: the
# Rust crate has no answer to them, so it counts them apart. It works in the folder ROOM, which it makes and keeps. It
# stands outside the gate, proves nothing, needs Debian's librust-serde-dev and librust-serde-derive-dev, rsync, cargo
# and python3, and takes four minutes.
set -euo pipefail
top=$(cd "$(dirname "$0")/.." && pwd)
parts=$top/checks/beside

# shellcheck source=bench/common.sh
. "$top/bench/common.sh"
take_original "$@"

python3 "$parts/cases.py" "${3:-1}" 20000 50000 > "$room/cases"
place_original "$crate" "$parts/driver"
(cd "$room/driver" && cargo run --offline --quiet --release < "$room/cases" > "$room/answers") \
    2> "$room/driver.log" || { tail -n 8 "$room/driver.log"; exit 1; }

rm -rf "$room/rows"
python3 "$parts/judge.py" rows "$top/docs/DIFFERENCES.md" "$room"
(cd "$top/crates/check_rows" && rt try --steps 1 --seconds 300 --cases "$room/rows") \
    > "$room/said" 2> "$room/log" || { tail -n 5 "$room/log"; exit 1; }
python3 "$parts/judge.py" count "$room"
