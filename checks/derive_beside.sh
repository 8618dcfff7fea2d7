#!/usr/bin/env bash
# checks/derive_beside.sh CRATE ROOM [SEED]: makes 20,000 random trees for types of crates/check_derive, crates/check_fields,
# checks/serde_texts/more.rs and checks/derive_beside/others.rs, whole and damaged, reads each as its type by what Serde
# derives over the Rust crate serde-content 0.1.2, whose source is in the folder CRATE, and by what tools/derive writes,
# and sends each value again, one as what borrows from it. It prints how many answers are the same, how many differ as a
# line of docs/DIFFERENCES.md says, for each line, and how many differ otherwise: the first ten of these, and status 1,
# as where no case falls under a line. It works in the folder ROOM, which it makes and keeps. It is outside the gate,
# proves nothing, needs what checks/beside.sh does, and takes three minutes.
set -euo pipefail
top=$(cd "$(dirname "$0")/.." && pwd)
parts=$top/checks/derive_beside

# shellcheck source=bench/common.sh
. "$top/bench/common.sh"
take_original "$@"
# in Rust a HashMap has another order in each run: here it is a BTreeMap
sed 's/HashMap/BTreeMap/g' "$top/crates/check_derive/types.rs" > "$room/types.rs"
files=("$room/types.rs" "$top"/crates/check_derive/{choices,sorts,inlined}.rs "$top"/crates/check_fields/{arrays,attributes,by_functions,converted,nested}.rs "$top/checks/serde_texts/more.rs" "$parts/others.rs")
cases=("$room" "${3:-1}" 20000 "${files[@]}")

place_ours derive_beside "$parts/here" 'derive_beside: content_de content_nested content_ser content_tree serde_content'
here=$room/ours/crates/derive_beside
for module in answer cursor failure flags named number order piece printable quoted run show tree unfold; do
    cp "$top/crates/check_rows/src/$module.rt" "$here/src/"
done
cp "$top"/crates/check_fields/src/{conversions,rules}.rt "$here/src/"
cp -r "$top/crates/check_fields/specs" "$here/"
sed -i 's/check_fields/derive_beside/' "$here"/src/{conversions,rules}.rt "$here"/specs/*.antt
place_original "$crate" "$parts/driver"
sent=$top/crates/check_fields/borrowed.rs
cp "$top"/checks/beside/driver/src/{cursor,trees}.rs "${files[@]}" "$sent" "$room/driver/src/"
for types in "${files[@]}" "$sent"; do
    module=$(basename "$types" .rs)
    "$top/tools/derive" --crate derive_beside --module "$module" "$types" > "$here/src/$module.rt" \
        2> "$room/derive.log" || { cat "$room/derive.log"; exit 1; }
done
python3 "$parts/judge.py" programs "$room/driver/src" "$here/src" "${files[@]}"

python3 "$parts/judge.py" cases "${cases[@]}"
(cd "$room/driver" && cargo run --offline --quiet --release < "$room/cases" > "$room/answers") \
    2> "$room/driver.log" || { tail -n 8 "$room/driver.log"; exit 1; }

rm -rf "$room/rows"
python3 "$parts/judge.py" rows "${cases[@]}"
(cd "$here" && rt try --steps 1 --seconds 300 --cases "$room/rows") \
    > "$room/said" 2> "$room/log" || { tail -n 5 "$room/log"; exit 1; }
python3 "$parts/judge.py" count "$room"
