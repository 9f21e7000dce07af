#!/bin/sh
# Whether gcc, as a strict C11 compiler, accepts the sources of the cases of typing (crates/type_cases): how many both
# accept, and each that only one of the two accepts. A program of two files is accepted where each of its files is. What
# every source may use without declaring it stands in front of each.
# Usage: bench/accepted_by_gcc.sh [--refused]; with the word it also prints those that only gcc accepts.
set -eu
here=$(cd "$(dirname "$0")" && pwd)
cases=$here/../crates/type_cases/data/cases.txt
answers=$here/../crates/type_cases/stdout
made=$(mktemp -d)
trap 'rm -rf "$made"' EXIT
# A file for each source, as the cases write it: a backquote is a line feed, and a source with `@` is how many times, a
# front, a part that comes so often with the number of the turn for each `#`, and a back.
awk -v made="$made" '
    function lines(text) { gsub(/`/, "\n", text); return text }
    function put(text, name,    field, count, turn, part) {
        print "int putchar(int); int getchar(void); void exit(int); enum { EOF = -1, NULL = 0 };" >name
        print "#line 1" >name
        count = split(text, field, "@")
        if (count == 1) {
            print lines(text) >name
        } else {
            printf "%s", lines(field[2]) >name
            for (turn = 0; turn < field[1]; turn++) {
                part = field[3]
                gsub(/#/, turn, part)
                printf "%s", lines(part) >name
            }
            print lines(field[4]) >name
        }
        close(name)
    }
    {
        count = split($0, file, "$")
        for (i = 1; i <= count; i++) put(file[i], made "/" NR "_" i ".c")
    }' "$cases"
both=0 ours=0 theirs=0 neither=0 number=0
while IFS= read -r answer <&3 && IFS= read -r source <&4; do
    number=$((number + 1))
    accepted=yes
    for file in "$made/${number}"_*.c; do
        gcc -std=c11 -pedantic-errors -fsyntax-only "$file" 2>>"$made/$number.told" || accepted=no
    done
    case $answer,$accepted in
        Checked,yes) both=$((both + 1)) ;;
        Checked,no)
            ours=$((ours + 1))
            printf 'not by gcc: %.300s\n' "$source"
            grep -m 1 'error:' "$made/$number.told" | sed "s|$made/||"
            ;;
        *,yes)
            theirs=$((theirs + 1))
            if [ "${1-}" = --refused ]; then printf 'only by gcc, here %s: %.300s\n' "$answer" "$source"; fi
            ;;
        *) neither=$((neither + 1)) ;;
    esac
done 3<"$answers" 4<"$cases"
echo "accepted by both $both, only here $ours, only by gcc $theirs, by none $neither"
