#!/usr/bin/env bash
# checks/derive.sh: compares what tools/derive writes for each file of declarations in crates/check_derive,
# crates/check_fields and crates/shapes with the module that `rt ci` proves; and what it answers to the declarations in
# checks/derive, which it takes, refuses or finds no Rust, and to 5,000 mutants of them. The modules of what it takes, and of
# 40 mutants, are compiled by `rt try`, which checks Rust's types and proves nothing. Its status is 1 where one differs. It
# needs python3, git and the kit, and takes a processor minute.
# `python3 checks/derive/mutants.py . SEED` tries other mutants.
set -eu
top=$(cd "$(dirname "$0")/.." && pwd)
cd "$top/crates/check_derive"
for module in types choices sorts inlined places; do
    "$top/tools/derive" --crate check_derive --module $module --cbor $module.rs --check src/$module.rt
done
cd ../check_fields
for module in arrays attributes borrowed by_functions converted spread nested generic; do
    "$top/tools/derive" --crate check_fields --module $module --cbor $module.rs --check src/$module.rt
done
"$top/tools/derive" --crate check_fields --module left_over left_over.rs --check src/left_over.rt
"$top/tools/derive" --crate shapes --module types "$top/crates/shapes/types.rs" --check "$top/crates/shapes/src/types.rt"
python3 "$top/checks/derive/cases.py" "$top"
python3 "$top/checks/derive/mutants.py" "$top"
