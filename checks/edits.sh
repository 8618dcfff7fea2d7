#!/usr/bin/env bash
# checks/edits.sh [--gate | CRATE .. | CRATE/EDIT ..]: of each group of wrong bodies, checks/edits/CRATE/EDIT.edit, compares
# the functions that the check refuses with the list next to it, EDIT.md: each function of a list must be refused for
# itself, and not for one that it calls. With no argument it tries all, with names of crates those of these, JOBS (or else
# 2) crates side by side: each function is proved from the contracts of others, so groups that change other bodies of a
# crate are tried together, and what one may hide of another is tried again apart. With --gate it tries those of
# checks/edits/gate, over the libraries that `rt ci` left built. It ends with status 1 where a listed function is not
# refused. It needs out/ of each crate, as `rt check` or `rt ci` leaves it, works on copies, and takes python3.
exec python3 "$(dirname "$0")/edits/edits.py" "$(cd "$(dirname "$0")/.." && pwd)" "$@"
