#!/usr/bin/env bash
# How much processor time the gate spends on each crate: its own proofs, its tests, and its must-fail edits.
# Runs `rt ci` with the words given and looks at its processes once a second, so a figure can be short by a second a process.
# Usage: bench/gate_times.sh [rt ci's words]; for a run from nothing: bench/gate_times.sh --anew
set -u
cd "$(dirname "$0")/.."
seen=$(mktemp -d)
trap 'rm -rf "$seen"' EXIT

# the processes of the prover that this run of the gate has started, by one look at all of them
provers() {
  ps -e -o pid= -o ppid= -o args= | awk -v root="$1" '
    { parent[$1] = $2; prover[$1] = ($0 ~ /rattle (check|build)/) }
    END {
      for (id in prover) if (prover[id]) {
        above = id
        while (above in parent && above != root) above = parent[above]
        if (above == root) print id
      }
    }'
}

# the crate, what is checked of it, and the seconds so far, in a file for each process
look() {
  local id words place kind crate clock
  clock=$(getconf CLK_TCK)
  for id in $(provers "$1"); do
    words=$(tr '\0' ' ' 2>/dev/null <"/proc/$id/cmdline") || continue
    place=$(readlink "/proc/$id/cwd") || continue
    crate=${words##*--crate-name }
    crate=${crate%% *}
    case "$place $words" in
      */rt-edit-*) kind=edits ;;
      *" --test "*) kind=tests ;;
      *) kind=own ;;
    esac
    # a number of a process may come again later: its time of starting tells the two apart
    awk -v crate="$crate" -v kind="$kind" -v clock="$clock" -v file="$seen/$id" \
      '{ print crate, kind, ($14 + $15) / clock >(file "-" $22) }' "/proc/$id/stat"
  done
} 2>/dev/null

begun=$(date +%s)
rt ci "$@" >"$seen/log" 2>&1 &
gate=$!
while kill -0 "$gate" 2>/dev/null; do
  look "$gate"
  sleep 1
done
wait "$gate"
status=$?
tail -n 1 "$seen/log"
rm -f "$seen/log"
cat "$seen"/* 2>/dev/null | awk -v clock="$(($(date +%s) - begun))" '
  { time[$1, $2] += $3; all[$2] += $3; sum[$1] += $3; total += $3 }
  END {
    print "| crate | own | tests | edits | in all (seconds) |"
    print "|---|---|---|---|---|"
    for (crate in sum) printf "| %s | %.0f | %.0f | %.0f | %.0f |\n", crate, time[crate, "own"], time[crate, "tests"], time[crate, "edits"], sum[crate] | "sort -t\"|\" -k6 -n -r"
    close("sort -t\"|\" -k6 -n -r")
    printf "| all | %.0f | %.0f | %.0f | %.0f |\n", all["own"], all["tests"], all["edits"], total
    printf "%d minutes of processor time, %d by the clock\n", total / 60, clock / 60
  }'
exit "$status"
