#!/usr/bin/env bash
# checks/derive_declarations.sh [NAME ..]: how many of the sixty declarations in checks/derive/declarations tools/derive
# takes, or of these names, and why it refuses the others, in a second. They are declarations as people write them in
# configurations, payloads of APIs, messages of protocols, events, trees and rows, each with its source, written before it was
# known which are covered. Each stands with the types that it holds; a type of another crate is a text, as it is sent. The
# script proves nothing.
set -eu
top=$(cd "$(dirname "$0")/.." && pwd)
python3 "$top/checks/derive/declarations.py" "$top" "$@"
