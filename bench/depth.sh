#!/usr/bin/env bash
# bench/depth.sh ROOM [CRATE]: measures how deep a value may nest on a stack of 8 MB, for each kind of
# nesting and each operation, here and, where CRATE is a folder with the source of serde-content
# 0.1.2, in the Rust crate. It works in the folder ROOM, which it makes; keep that, and the next run
# proves and builds only what has changed. It needs rsync and python3, and for the Rust crate cargo
# and Debian's librust-serde-dev and librust-serde-derive-dev.
set -euo pipefail

here=$(cd "$(dirname "$0")" && pwd)
top=$(cd "$here/.." && pwd)
mkdir -p "$1"
room=$(cd "$1" && pwd)

# shellcheck source=bench/common.sh
. "$here/common.sh"

place_ours content_deep "$here/depth/content_deep" \
    'content_deep: content_build content_cbor content_de content_ser content_tree content_uses'
deep=$room/ours/crates/content_deep
(cd "$deep" && rt run --jobs 1 -- drop some 1) > "$room/ours.log" 2>&1 \
    || { tail -n 5 "$room/ours.log"; exit 1; }
echo ours
python3 "$here/depth/bisect.py" "$deep/out/content_deep" ours

[ $# -gt 1 ] || exit 0
place_original "$2" "$here/depth/driver"
(cd "$room/driver" && RUSTFLAGS='-C target-cpu=x86-64-v2' cargo build --offline --release) \
    2> "$room/driver.log" || { tail -n 8 "$room/driver.log"; exit 1; }
echo 'the Rust crate'
python3 "$here/depth/bisect.py" "$room/driver/target/release/depth"
