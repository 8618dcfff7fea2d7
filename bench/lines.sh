#!/usr/bin/env bash
# bench/lines.sh: measures the program: builds it, runs it on sequences of 10,000, 100,000 and
# 1,000,000 elements and on maps of as many keys, the shortest lines for a node, and prints the
# seconds, the bytes a second and the peak of memory of each run. Then, for numbers, structs, texts
# of 100 bytes and entries of a map, it prints the instructions an item, by callgrind on 10,000 of
# them, and the peak of memory on 1,000,000, of the program and of lines/plain.rs, which does the
# same as one would write it in Rust at once, with the ratios. A measurement, not a test. It needs
# GNU time, valgrind and rustc.
set -euo pipefail

cd "$(dirname "$0")/../crates/content_cli"
rt run < stdin > /dev/null 2>&1

folder=$(mktemp -d)
trap 'rm -r "$folder"' EXIT

printf '%-15s %9s %9s %8s %13s %9s\n' lines count bytes seconds bytes/second peak-kB
measure() { # OPENING ITEM: the lines that open a compound, and those of one node in it
    local count
    for count in 10000 100000 1000000; do
        awk -v n="$count" -v opening="$1" -v item="$2" \
            'BEGIN { print opening; for (i = 0; i < n; i++) print item; print "end" }' > "$folder/input"
        start=$(date +%s%N)
        /usr/bin/time -f %M -o "$folder/peak" out/content_cli < "$folder/input" > "$folder/output"
        stop=$(date +%s%N)
        awk -v lines="${2/\\n/, }" -v n="$count" -v bytes="$(stat -c %s "$folder/input")" \
            -v ns="$((stop - start))" -v peak="$(cat "$folder/peak")" \
            'BEGIN { printf "%-15s %9d %9d %8.3f %13.0f %9d\n",
                lines, n, bytes, ns / 1e9, bytes * 1e9 / ns, peak }'
    done
}

measure seq 'element\nu8 7'
measure map 'key\nunit'

# Rattle's code is for x86-64-v2.
rustc --edition 2021 -O -C target-cpu=x86-64-v2 -o "$folder/plain" ../../bench/lines/plain.rs

write_items() { # OPENING ITEM COUNT: the lines of an item, where # is a number
    awk -v opening="$1" -v item="$2" -v n="$3" \
        'BEGIN {
            print opening
            last = split(item, parts, "#")
            for (i = 0; i < n; i++) {
                for (k = 1; k < last; k++) printf "%s%d", parts[k], i * 7919 % 30000 + 1
                print parts[last]
            }
            print "end"
        }' > "$folder/input"
}
instructions() { # PROGRAM OUTPUT
    valgrind --tool=callgrind --callgrind-out-file="$folder/counts" "$1" < "$folder/input" \
        2>&1 > "$2" | awk '/Collected/ { print $4 / 10000 }'
}
peak() { # PROGRAM
    /usr/bin/time -f %M -o "$folder/peak" "$1" < "$folder/input" > "$folder/output"
    cat "$folder/peak"
}
printf '\n%-9s %12s %9s %6s %12s %9s %6s\n' \
    items instructions plain ratio peak-kB plain ratio
count() { # NAME OPENING ITEM
    local ours plain our_peak plain_peak
    write_items "$2" "$3" 10000
    ours=$(instructions out/content_cli "$folder/output")
    plain=$(instructions "$folder/plain" "$folder/other")
    cmp "$folder/output" "$folder/other"
    write_items "$2" "$3" 1000000
    our_peak=$(peak out/content_cli)
    plain_peak=$(peak "$folder/plain")
    awk -v name="$1" -v a="$ours" -v b="$plain" -v c="$our_peak" -v d="$plain_peak" \
        'BEGIN { printf "%-9s %12d %9d %6.2f %12d %9d %6.2f\n", name, a, b, a / b, c, d, c / d }'
}
count numbers seq 'element\nu32 #'
count structs seq 'element\nstruct Point 2\nfield x\nu32 #\nfield y\ni16 -#\nend'
count texts seq "element\nstr $(printf '%0100d' 0)"
count entries map 'key\nstr key #\nvalue\nu64 #'
