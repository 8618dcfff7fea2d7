#!/usr/bin/env bash
# checks/serde_texts.sh [--write]: compares the texts of refusals by types that tools/derive wrote, and by the same types
# that Serde derived, with the page checks/serde_texts/texts.md, or writes them there. It stands outside the gate, proves
# nothing, needs what bench/beside/run.sh does, and takes two minutes.
set -euo pipefail
top=$(cd "$(dirname "$0")/.." && pwd)
parts=$top/checks/serde_texts
room=$(mktemp -d)
trap 'rm -rf "$room"' EXIT

# shellcheck source=bench/common.sh
. "$top/bench/common.sh"

place_ours serde_texts "$parts/here" 'serde_texts: anyhow content_de content_ser content_tree serde_content'
here=$room/ours/crates/serde_texts
place_driver "$parts/beside"
python3 "$parts/texts.py" cases "$parts/texts.md" "$room/driver/src/cases.rs" "$here/src/cases.rt"
for types in "$top"/crates/check_derive/{choices,inlined,sorts,types}.rs "$parts/more.rs"; do
    module=$(basename "$types" .rs)
    cp "$types" "$room/driver/src/"
    "$top/tools/derive" --crate serde_texts --module "$module" "$types" > "$here/src/$module.rt"
done

(cd "$room/driver" && cargo run --offline --quiet) > "$room/serde"
(cd "$here" && rt try) > "$room/here" 2> "$room/log" || { tail -n 5 "$room/log"; exit 1; }
python3 "$parts/texts.py" page "$parts/texts.md" "$room/here" "$room/serde" > "$room/texts.md"
[ "${1-}" != --write ] || cp "$room/texts.md" "$parts/texts.md"
diff "$parts/texts.md" "$room/texts.md"
echo "of $(wc -l < "$room/here") texts $(grep -c '| the same |$' "$room/texts.md") are Serde's, the others as the page has them"
