#!/bin/sh
# Instructions of middle code a second on one thread, side by side: the proved machine, a plain switch in
# C over the same instructions of the same two programs, and computed goto in C as the limit. All must come
# to the same ends. It prints each figure, and at the end the medians,
# also those of the ratio in each round: a processor that changes its speed changes it for a round's runs alike.
# Usage: bench/mid_speed.sh [TURNS [ROUNDS]], after `rt run` in crates/mid_speed has built it.
set -eu
turns=${1:-20000003}
rounds=${2:-3}
here=$(cd "$(dirname "$0")" && pwd)
built=$(mktemp -d)
trap 'rm -rf "$built"' EXIT
cc -O2 -o "$built/switch" "$here/mid_switch.c"
cc -O2 -o "$built/goto" "$here/mid_goto.c"
ln -s "$here/../crates/mid_speed/out/mid_speed" "$built/mid_run"
for _ in $(seq "$rounds"); do
    for run in mid_run switch goto; do
        "$built/$run" "$turns" >"$built/$run.ends" 2>"$built/figures"
        sed "s/^/$run, /" "$built/figures" | tee -a "$built/all"
        cmp "$built/mid_run.ends" "$built/$run.ends"
    done
done
median() { sort -n | awk '{ all[NR] = $1 } END { print (all[int((NR + 1) / 2)] + all[int((NR + 2) / 2)]) / 2 }'; }
figures() { sed -n "s/^$1, $2: \([0-9]*\) .*/\1/p" "$built/all"; }
echo 'medians of the figures in millions, and of what each makes of the switch of the same round:'
for loop in arithmetic array; do
    figures switch "$loop" >"$built/switch.all"
    for run in mid_run switch goto; do
        figures "$run" "$loop" >"$built/$run.all"
        printf '%s, %s: %s, %s\n' "$run" "$loop" "$(awk '{ print $1 / 1e6 }' "$built/$run.all" | median)" \
            "$(paste "$built/$run.all" "$built/switch.all" | awk '{ print $1 / $2 }' | median)"
    done
done
