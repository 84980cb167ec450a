#!/usr/bin/env bash
# Answers questions over the files of the folder in which it is started.
#
#     try.sh QUERY SCRIPT QUESTIONS [QUERY SCRIPT QUESTIONS ..]
#
# The proved program, where there is one ($CASTOR names it, or it is crates/castor/out/castor), builds an image in a folder
# for temporary files and asks it. Where there is none, the toolchain runs the program before its proofs, which takes a
# minute or two, and `answer` gives the replies that the image would give; a line says so, and nothing unproved is left
# behind. The status is that of the first run that didn't end with 0.
set -eu
top=$(cd "$(dirname "$0")/.." && pwd)
if [ $# -eq 0 ] || [ $(($# % 3)) -ne 0 ]; then
    echo "usage: try.sh QUERY SCRIPT QUESTIONS [QUERY SCRIPT QUESTIONS ..]" >&2
    exit 2
fi
room=$(mktemp -d)
trap 'rm -rf "$room"' EXIT
castor=${CASTOR:-$top/crates/castor/out/castor}

if [ -n "${CASTOR:-}" ] || [ -x "$castor" ]; then
    while [ $# -gt 0 ]; do
        "$castor" build "$1" "$2" "$room/image"
        "$castor" ask "$room/image" <"$3"
        shift 3
    done
    exit
fi

if ! command -v rt >/dev/null; then
    echo "try.sh: no program at $castor, and no rt on the PATH to run or build one" >&2
    exit 1
fi
echo "try.sh: no proved program is there yet: the program answers before its proofs, in a minute or two" >&2
# A case is the questions in a file, and the words of the run in another; its name is one that no reply has.
name=try-$$-$RANDOM$RANDOM
number=100
files=()
mkdir "$room/cases"
for file in *.csv; do
    [ ! -f "$file" ] || files+=(--data "$file=$PWD/$file")
done
while [ $# -gt 0 ]; do
    number=$((number + 1))
    cp "$3" "$room/cases/$name-$number"
    printf 'answer\n%s\n%s\n' "$1" "$2" >"$room/cases/$name-$number.args"
    files+=(--data "$1=$PWD/$1" --data "$2=$PWD/$2")
    shift 3
done
status=0
(cd "$top/crates/castor" && rt try "${files[@]}" --cases "$room/cases") >"$room/out" 2>"$room/err" || status=$?
sed "/^== $name-[0-9]*\$/d" "$room/out"
if [ "$status" -ne 0 ]; then
    cat "$room/err" >&2
    exit "$status"
fi
grep '^castor: ' "$room/err" >&2 || true
status=$(sed -n 's/^case=.* status=\([1-9][0-9]*\) .*/\1/p' "$room/err" | head -n 1)
echo "try.sh: scripts/build.py proves the program and puts it at crates/castor/out/castor, where the next run finds it" >&2
exit "${status:-0}"
