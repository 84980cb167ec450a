#!/usr/bin/env bash
# Answers 1,000 question lines over a table of 100,000 rows by a dependent join, which looks at every row twice for
# each line, and prints the seconds of one run, the rows that are looked at a second, and how the seconds compare
# with those of the same questions to sqlite3 without an index, over the same rows in memory.
set -eu

rows=100000
lines=1000
. "$(dirname "${BASH_SOURCE[0]}")/common.sh"

orders $rows >orders.csv
awk -v lines=$lines 'BEGIN { for (i = 0; i < lines; i++) print i * 7 }' >questions
cat >depjoin.query <<'END'
table orders (id int, cust text, total int);
param n int;
query depjoin(filter(id = $n, orders) as o, select([id, total - o.total as more], filter(cust = o.cust, orders)))
END
echo 'finish;' >finish.script
{
    echo 'create table orders (id integer, cust text, total integer);'
    echo '.import --csv --skip 1 orders.csv orders'
    awk '{ printf "select p.id, p.total - o.total from orders o, orders p where o.id = %s and p.cust = o.cust;\n", $0 }' questions
} >peer.sql

ask_castor() {
    "$castor" answer depjoin.query finish.script <questions >castor.out
}

ask_sqlite() {
    sqlite3 :memory: "pragma automatic_index = off;" ".read peer.sql" >sqlite.out
}

seconds=$(seconds_of ask_castor)
awk -v rows=$rows -v lines=$lines -v s="$seconds" 'BEGIN {
    printf "depjoin: %d lines over %d rows twice: %.3f s, %.1f million rows/s\n", lines, rows, s, 2 * rows * lines / s / 1e6
}'
if command -v sqlite3 >/dev/null; then
    peer=$(seconds_of ask_sqlite)
    found=$(grep -c '^[0-9]*,' castor.out || true)
    [ "$found" -eq "$(wc -l <sqlite.out)" ] || echo "depjoin: the peer found other rows" >&2
    awk -v s="$seconds" -v p="$peer" 'BEGIN { printf "depjoin: sqlite3 without an index: %.3f s, ratio %.2f\n", p, s / p }'
else
    echo "depjoin: no sqlite3 to compare with"
fi
