#!/usr/bin/env bash
# Loads a table of 1,000,000 rows of an int, a text and an int, and prints the best of three runs:
# the seconds, the bytes a second, the peak memory as a multiple of the file's size, and how the
# seconds compare with those of Python's csv module, which reads the same file into rows of the same types.
set -eu

rows=1000000
. "$(dirname "${BASH_SOURCE[0]}")/common.sh"

orders $rows >orders.csv
# The table is loaded, as each that is declared, and nothing of it is stored or asked.
echo 'table orders (id int, cust text, total int); query scalar(1)' >orders.query
echo 'finish;' >finish.script
cat >peer.py <<'END'
import csv

with open("orders.csv", encoding="utf-8", newline="") as file:
    records = csv.reader(file)
    assert next(records) == ["id", "cust", "total"]
    rows = [(int(number), cust, int(total)) for number, cust, total in records]
END

load_castor() {
    "$castor" answer orders.query finish.script </dev/null
}

load_python() {
    python3 peer.py
}

size=$(wc -c <orders.csv)
seconds=$(best_of_three load_castor)
awk -v rows=$rows -v size="$size" -v s="$seconds" 'BEGIN {
    printf "load: %d rows, %d bytes: %.3f s, %.1f MB/s\n", rows, size, s, size / s / 1e6
}'

if [ -x /usr/bin/time ]; then
    peak=$(/usr/bin/time -f %M "$castor" answer orders.query finish.script 2>&1 </dev/null)
    awk -v peak="$peak" -v size="$size" 'BEGIN {
        printf "load: peak memory %.1f times the file (%.1f MB)\n", peak * 1024 / size, peak * 1024 / 1e6
    }'
else
    echo "load: peak memory not measured, since there is no /usr/bin/time"
fi

if command -v python3 >/dev/null; then
    peer=$(best_of_three load_python)
    awk -v s="$seconds" -v peer="$peer" 'BEGIN {
        printf "load: Python csv %.3f s; castor takes %.2f times that\n", peer, s / peer
    }'
else
    echo "load: no python3 to compare with"
fi
