#!/bin/sh
# Words a second between two threads, side by side: the proved queue with both sizes, the kit's
# rtrb, and a ring in C, once with sequentially consistent slots and once with relaxed ones.
# Usage: bench/queue_speed.sh [WORDS [ROUNDS]], after `rt run` in crates/queue_speed has built it.
set -eu
words=${1:-50000000}
rounds=${2:-3}
here=$(cd "$(dirname "$0")" && pwd)
built=$(mktemp -d)
trap 'rm -rf "$built"' EXIT
cc -O2 -pthread -o "$built/consistent" "$here/ring.c"
cc -O2 -pthread -DSLOT=memory_order_relaxed -o "$built/relaxed" "$here/ring.c"
for _ in $(seq "$rounds"); do
    "$here/../crates/queue_speed/out/queue_speed" "$words"
    printf 'C ring 4096/64, sequentially consistent: %s\n' "$("$built/consistent" "$words")"
    printf 'C ring 4096/64, relaxed slots: %s\n' "$("$built/relaxed" "$words")"
done
