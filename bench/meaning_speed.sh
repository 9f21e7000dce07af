#!/usr/bin/env bash
# How long `srmtrun --reference` takes for loops, for calls, for an array, and for reading and writing bytes: the processor
# time of the whole program, in seconds, by the build that `rt run` or the gate has left in crates/srmtrun/out.
# Usage: bench/meaning_speed.sh [PROGRAM]
set -u
cd "$(dirname "$0")/.."
program=${1:-$PWD/crates/srmtrun/out/srmtrun}
if [ ! -x "$program" ]; then
  echo "bench/meaning_speed.sh: nothing is built. With all proofs: cd crates/srmtrun && rt run -- --version" >&2
  exit 1
fi
folder=$(mktemp -d)
trap 'rm -rf "$folder"' EXIT
cd "$folder"
cat > loop.c << 'END'
int main(void) { unsigned s = 0; for (unsigned i = 0; i < 10000000u; i++) s += i; return s % 256; }
END
cat > calls.c << 'END'
int fib(int n) { return n < 2 ? n : fib(n - 1) + fib(n - 2); }
int main(void) { return fib(27) % 256; }
END
cat > array.c << 'END'
int a[1000];
int main(void) {
  for (int k = 0; k < 3000; k++) for (int i = 0; i < 1000; i++) a[i] = (a[i] + i) % 1000;
  return a[7] % 256;
}
END
cat > copy.c << 'END'
int main(void) { int c; while ((c = getchar()) != EOF) putchar(c); return 0; }
END
head -c 1000000 /dev/zero > 1
head -c 2000000 /dev/zero > 2
head -c 4000000 /dev/zero > 4
TIMEFORMAT='%U + %S'
for name in loop calls array; do
  printf '%s: ' "$name"
  time "$program" "$name.c" --reference > /dev/null
done
for millions in 1 2 4; do
  printf 'copy of %s million bytes: ' "$millions"
  time "$program" copy.c --reference --input "$millions" > /dev/null
done
