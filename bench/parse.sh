#!/usr/bin/env bash
# Parses a query of the greatest size (1,048,576 bytes, 65,536 tokens, 4,096 relations and expressions),
# and prints the best of three runs: the seconds and the bytes a second. A run is the whole program,
# which starts, reads the file and parses it. The query's first table isn't declared, so it stops there.
set -eu

. "$(dirname "${BASH_SOURCE[0]}")/common.sh"

# A concat of the table and of 2,047 scalars, each of one text in 13 or 14 pairs of parentheses, which are no
# nodes. The texts take the bytes that are left.
awk 'BEGIN {
    bytes = 1048576; tokens = 65536; scalars = 2047
    head = "query concat(nowhere"
    pairs = int((tokens - 5 - 5 * scalars) / 2)
    fill = bytes - length(head) - 1 - 11 * scalars - 2 * pairs
    for (i = 0; i < 14; i++) { open = open "("; close_ = close_ ")" }
    while (length(text) < 2 * fill / scalars) text = text "abcdefghijklmnopqrstuvwxyz"
    printf "%s", head
    for (i = 0; i < scalars; i++) {
        deep = int(pairs / scalars) + (i < pairs % scalars)
        long = int(fill / scalars) + (i < fill % scalars)
        printf ",scalar(%s\047%s\047%s)", substr(open, 1, deep), substr(text, 1, long), substr(close_, 1, deep)
    }
    printf ")"
}' >big.query
echo 'finish;' >finish.script

parse() {
    "$castor" answer big.query finish.script </dev/null 2>error || true
}

# It is the table that is refused and not the text.
parse
case $(cat error) in
'castor: not yet' | 'castor: query: unknown table') ;;
*)
    echo "parse: the query wasn't parsed: $(cat error)" >&2
    exit 1
    ;;
esac

seconds=$(best_of_three parse)
awk -v size="$(wc -c <big.query)" -v s="$seconds" 'BEGIN {
    printf "parse: %d bytes: %.3f s, %.1f MB/s\n", size, s, size / s / 1e6
}'
