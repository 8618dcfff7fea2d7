#!/usr/bin/env bash
# bench/beside/run.sh CRATE ROOM [SHAPE,..]: measures reading and writing here beside the Rust crate
# serde-content 0.1.2, whose source is in the folder CRATE. It works in the folder ROOM, which it
# makes; keep that, and the next run proves and builds only what has changed. It prints, for each
# shape of data and each phase, the instructions a node of the crate, ours, and the ratio; then the
# bytes a node that a value of that data keeps, and the most while it is made. The shapes are points,
# nest, map, tree, records and by_hand: points whose impls are written by hand.
# It needs Debian's librust-serde-dev, librust-serde-derive-dev, valgrind and rsync, and cargo.
set -euo pipefail

here=$(cd "$(dirname "$0")" && pwd)
top=$(cd "$here/../.." && pwd)

# shellcheck source=bench/common.sh
. "$top/bench/common.sh"
take_original "$@"

place_ours content_port "$here/content_port" \
    'content_port staticlib: serde_content content_build content_de content_ser content_tree'
cp "$top/crates/shapes/src/point.rt" "$room/ours/crates/content_port/src/by_hand.rt"
build_port
place_original "$crate" "$here/driver"
cp "$here/content_port/types.rs" "$room/driver/src/"
build_driver
python3 "$here/counts.py" beside "$room/driver/target/release/bench" "$room/callgrind" \
    "${3:-points,nest,map,tree,records,by_hand}"
