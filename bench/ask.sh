#!/usr/bin/env bash
# Builds an image of 100,000 rows of three ints for a query that filters them, and asks it 20,000 questions, each of
# which looks at every row. Prints the seconds of building and of opening (best of three runs) and of the questions (one
# run, since it is long), the peak memory, and how the seconds of the questions compare with those of sqlite3 without an
# index for the same questions over the same rows in memory. ROWS and LINES name other numbers of rows and questions.
set -eu

rows=${ROWS:-100000}
lines=${LINES:-20000}
. "$(dirname "${BASH_SOURCE[0]}")/common.sh"

awk -v rows="$rows" 'BEGIN {
    print "id,customer,total"
    for (i = 0; i < rows; i++) printf "%d,%d,%d\n", i, i * 7919 % 10007, i * 37 % 1000
}' >orders.csv
awk -v lines="$lines" 'BEGIN { for (i = 0; i < lines; i++) print i * 101 % 10007 }' >questions
echo 'table orders (id int, customer int, total int); param c int; query filter(customer = $c, orders)' >ask.query
echo 'finish;' >finish.script

build_castor() {
    "$castor" build ask.query finish.script orders.image
}

open_castor() {
    "$castor" ask orders.image </dev/null
}

# Asks the questions, and leaves the greatest memory that was resident, in KiB, where that can be measured.
ask_castor() {
    if [ -x /usr/bin/time ]; then
        /usr/bin/time -o peak.txt -f %M "$castor" ask orders.image <questions >castor.out
    else
        "$castor" ask orders.image <questions >castor.out
    fi
}

# The rows alone, which sqlite3 reads before it is asked.
import_sqlite() {
    sqlite3 :memory: <import.sql
}

ask_sqlite() {
    cat import.sql questions.sql | sqlite3 :memory: >sqlite.out
}

build=$(best_of_three build_castor)
size=$(wc -c <orders.image)
printf 'ask: build of %d rows, an image of %d bytes: %.3f s\n' "$rows" "$size" "$build"
open=$(best_of_three open_castor)
printf 'ask: open: %.3f s\n' "$open"
asked=$(seconds_of ask_castor)
awk -v rows="$rows" -v lines="$lines" -v s="$asked" -v open="$open" 'BEGIN {
    s -= open
    printf "ask: %d questions: %.3f s behind opening, %.1f million rows/s\n", lines, s, rows * lines / s / 1e6
}'
if [ -s peak.txt ]; then
    awk -v size="$size" '{
        printf "ask: peak memory %.1f times the image (%.1f MB)\n", $1 * 1024 / size, $1 * 1024 / 1e6
    }' peak.txt
else
    echo "ask: peak memory not measured, since there is no /usr/bin/time"
fi
if command -v sqlite3 >/dev/null; then
    {
        echo 'create table orders (id integer, customer integer, total integer);'
        echo '.import --csv --skip 1 orders.csv orders'
    } >import.sql
    awk '{ printf "select * from orders where customer = %s;\n", $0 }' questions >questions.sql
    import=$(best_of_three import_sqlite)
    peer=$(seconds_of ask_sqlite)
    found=$(grep -c '^[0-9]*,' castor.out || true)
    [ "$found" -eq "$(wc -l <sqlite.out)" ] || echo "ask: the peer found other rows" >&2
    awk -v s="$asked" -v open="$open" -v p="$peer" -v import="$import" 'BEGIN {
        printf "ask: sqlite3 without an index: %.3f s behind its import, ratio %.2f\n", p - import, (s - open) / (p - import)
    }'
else
    echo "ask: no sqlite3 to compare with"
fi
