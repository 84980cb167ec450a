#!/usr/bin/env bash
# Builds an image for each query of the examples with the proved program, asks it by the program and by
# examples/read_image.py, and says whether the replies are the same bytes. The program is that of crates/castor/out, or the
# one that $CASTOR names.
set -eu
top=$(cd "$(dirname "$0")/.." && pwd)
castor=$(realpath "${CASTOR:-$top/crates/castor/out/castor}")
room=$(mktemp -d)
trap 'rm -rf "$room"' EXIT
status=0

compare() {
    cd "$top/examples/$1"
    "$castor" build "$2.query" finish.script "$room/image"
    "$castor" ask "$room/image" <"$3.txt" >"$room/program"
    "$top/examples/read_image.py" "$room/image" <"$3.txt" >"$room/reader"
    if cmp -s "$room/program" "$room/reader"; then
        echo "$1/$2: the same $(wc -l <"$room/program") lines"
    else
        echo "$1/$2: the replies differ" >&2
        diff "$room/program" "$room/reader" >&2 || true
        status=1
    fi
}

compare calendar thirteenth years
compare orders by_customer customers
compare orders largest least
compare orders share shares
exit $status
