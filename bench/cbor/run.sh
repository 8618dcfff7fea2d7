#!/usr/bin/env bash
# bench/cbor/run.sh ROOM: measures CBOR here beside the Rust crate serde_cbor 0.11. It works in the
# folder ROOM, which it makes; keep that, and the next run proves and builds only what has changed.
# It prints, for structs, a map and records and for each phase, the instructions a node of the crate,
# ours, and the ratio. It needs Debian's librust-serde-dev, librust-serde-derive-dev,
# librust-serde-cbor-dev, valgrind and rsync, and cargo.
set -euo pipefail

here=$(cd "$(dirname "$0")" && pwd)
top=$(cd "$here/../.." && pwd)
mkdir -p "$1"
room=$(cd "$1" && pwd)

# shellcheck source=bench/common.sh
. "$top/bench/common.sh"

# Ours, over the data of bench/beside. Its points by hand aren't measured here.
rsync -a --delete --exclude points_by_hand.rt.in "$top/bench/beside/content_port/" "$room/port/"
rsync -a "$here/content_port/" "$room/port/"
place_ours content_port "$room/port" \
    'content_port staticlib: content_cbor serde_content content_de content_ser content_tree'
build_port
place_driver "$here/driver"
cp "$top/bench/beside/driver/build.rs" "$room/driver/"
cp "$top/bench/beside/content_port/types.rs" "$top/bench/beside/driver/src/records.rs" \
    "$room/driver/src/"
build_driver
bench=$room/driver/target/release/bench
for shape in points map records; do
    [ "$("$bench" rust "$shape" 1000)" = "$("$bench" ours "$shape" 1000)" ] \
        || { echo "the bytes of $shape differ"; exit 1; }
done
python3 "$top/bench/beside/counts.py" cbor "$bench" "$room/callgrind" points,map,records
