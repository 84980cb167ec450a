#!/usr/bin/env bash
# Answers 200 question lines over a table of 100,000 rows by a filter, and prints the best of three
# runs: the seconds, the rows that are looked at a second, and how the seconds compare with those of
# the same scans by sqlite3 without an index, over the same rows in memory.
set -eu

rows=100000
lines=200
. "$(dirname "${BASH_SOURCE[0]}")/common.sh"

orders $rows >orders.csv
awk -v lines=$lines 'BEGIN { for (i = 0; i < lines; i++) printf "customer %d\n", i * 101 % 10007 }' >questions
echo 'table orders (id int, cust text, total int); param c text; query filter(cust = $c, orders)' >scan.query
echo 'finish;' >finish.script
{
    echo 'create table orders (id integer, cust text, total integer);'
    echo '.import --csv --skip 1 orders.csv orders'
    awk '{ printf "select * from orders where cust = '\''%s'\'';\n", $0 }' questions
} >peer.sql

ask_castor() {
    "$castor" answer scan.query finish.script <questions >castor.out
}

ask_sqlite() {
    sqlite3 :memory: <peer.sql >sqlite.out
}

seconds=$(best_of_three ask_castor)
awk -v rows=$rows -v lines=$lines -v s="$seconds" 'BEGIN {
    printf "scan: %d lines over %d rows: %.3f s, %.1f million rows/s\n", lines, rows, s, rows * lines / s / 1e6
}'
if command -v sqlite3 >/dev/null; then
    peer=$(best_of_three ask_sqlite)
    found=$(grep -c '^[0-9]*,' castor.out || true)
    [ "$found" -eq "$(wc -l <sqlite.out)" ] || echo "scan: the peer found other rows" >&2
    awk -v s="$seconds" -v p="$peer" 'BEGIN { printf "scan: sqlite3 without an index: %.3f s, ratio %.2f\n", p, s / p }'
else
    echo "scan: no sqlite3 to compare with"
fi
