#!/bin/sh
# How long the tokens and the tree of ordinary code take, for sources of about an eighth, a quarter, a
# half and the whole of 1,048,576 bytes, the longest that are read, and beside each how long a plain front
# end in C of the same shape takes (parse_front.c). Both must count as many tokens and externals.
# Usage: bench/parse_speed.sh [ROUNDS], after `rt run` in crates/parse_speed has built it.
set -eu
rounds=${1:-3}
here=$(cd "$(dirname "$0")" && pwd)
made=$(mktemp -d)
trap 'rm -rf "$made"' EXIT
"${CC:-cc}" -O2 -o "$made/front" "$here/parse_front.c"
for size in 131072 262144 524288 1048576; do
    awk -v size="$size" '{ form = form $0 "\n" } END {
        for (count = 0; ; count++) {
            part = form "\n"
            gsub(/_0/, "_" count, part)
            bytes += length(part)
            if (size < bytes) exit
            printf "%s", part
        }
    }' "$here/../crates/parse_speed/data/weigh.c" >"$made/$size.c"
done
for _ in $(seq "$rounds"); do
    for size in 131072 262144 524288 1048576; do
        printf '%s bytes, ' "$(wc -c <"$made/$size.c" | tr -d ' ')"
        "$here/../crates/parse_speed/out/parse_speed" "$made/$size.c" >"$made/ours" 2>"$made/time"
        cat "$made/time" "$made/ours"
        "$made/front" "$made/$size.c" >"$made/theirs"
        tail -n 1 "$made/theirs"
        head -n 1 "$made/theirs" | cmp - "$made/ours"
    done
done
