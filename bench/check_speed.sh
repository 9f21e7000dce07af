#!/usr/bin/env bash
# How long `srmtrun --check` takes beside `gcc -fsyntax-only`, and beside `tcc -c` where it is installed, on large
# sources of five kinds. It takes the proved program that `rt run` leaves in crates/srmtrun/out.
# Usage: bench/check_speed.sh [ROUNDS]; the figures are milliseconds, medians of the rounds, of whole processes.
set -u
cd "$(dirname "$0")/.."
program=crates/srmtrun/out/srmtrun
rounds=${1:-9}
if [ ! -x "$program" ]; then
  echo "bench/check_speed.sh: nothing is built: cd crates/srmtrun && rt run -- --version" >&2
  exit 1
fi
folder=$(mktemp -d)
trap 'rm -rf "$folder"' EXIT

# make KIND BYTES FILE: a source of a kind, of at most so many bytes.
make() {
  awk -v kind="$1" -v most="$2" '
    function put(text) { size += length(text); printf "%s", text }
    BEGIN {
      back = "int main(void) { return 0; }\n"
      if (kind == "functions") {
        for (n = 0; n < 4000 && size < most - 400; n++) {
          put("static int f" n "(int a, int b) {\n  int c = a * " n " + b;\n")
          for (k = 0; k < 6 && size < most - 300; k++) put("  if (c > " k ") c -= b; else c += a << 1;\n")
          put("  return c;\n}\n")
        }
      } else if (kind == "function") {
        put("int g;\nstatic int f(int a, int b) {\n")
        while (size < most - 200) put("  a = a * 3 + (b - g) / 7; if (a < b) { b ^= a; } else { g += b; }\n")
        put("  return a;\n}\n")
      } else if (kind == "nesting") {
        for (n = 0; size < most - 2000 && n < 4000; n++) {
          put("static int f" n "(int a) { return ")
          for (k = 0; k < 90; k++) put("(a + ")
          put("a")
          for (k = 0; k < 90; k++) put(")")
          put("; }\n")
        }
      } else if (kind == "table") {
        put("static const int t[] = {")
        for (n = 0; n < 65535 && size < most - 100; n++) put((n ? ", " : "") (n * 7919) % 1000003)
        put("};\n")
      } else if (kind == "names") {
        put("static int f(void) {\n")
        for (n = 0; n < 10000 && size < most / 2 - 200; n++) put("  int name_number_" n " = " n ";\n")
        all = n
        for (n = 0; size < most - 200; n++) put("  name_number_" n % all " += name_number_" (n * 7) % all ";\n")
        put("  return 0;\n}\n")
      }
      put(back)
    }' > "$3"
}

# took COMMAND..: milliseconds of one run; it must end with 0.
took() {
  local begin end
  begin=$(date +%s%N)
  "$@" > /dev/null 2> "$folder/err" || { echo "bench/check_speed.sh: $* failed: $(head -c 300 "$folder/err")" >&2; exit 1; }
  end=$(date +%s%N)
  echo $(((end - begin) / 10000))
}

# median COMMAND..: the median of the rounds, in milliseconds with two digits.
median() {
  for _ in $(seq "$rounds"); do took "$@"; done | sort -n | awk '{ v[NR] = $1 } END { printf "%.1f", v[int((NR + 1) / 2)] / 100 }'
}

echo "| source | bytes | srmtrun --check | gcc -fsyntax-only | tcc -c |"
echo "|---|---|---|---|---|"
for kind in functions function nesting table names; do
  for bytes in 65536 262144 1048576; do
    file=$folder/$kind.$bytes.c
    make "$kind" "$bytes" "$file"
    here=$(median "$program" "$file" --check) || exit 1
    gcc=$(median gcc -std=c11 -fsyntax-only -w "$file") || exit 1
    tcc=–
    if command -v tcc > /dev/null; then tcc=$(median tcc -c -w -o "$folder/out.o" "$file") || exit 1; fi
    echo "| $kind | $(stat -c %s "$file") | $here | $gcc | $tcc |"
  done
done
