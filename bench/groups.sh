#!/usr/bin/env bash
# Groups and sorts a table of 200,000 rows for each of 10 question lines, and prints the best of three
# runs: the seconds, the rows that are grouped a second, and how the seconds compare with those of
# the same questions to sqlite3 over the same rows in memory.
set -eu

rows=200000
lines=10
. "$(dirname "${BASH_SOURCE[0]}")/common.sh"

orders $rows >orders.csv
awk -v lines=$lines 'BEGIN { for (i = 0; i < lines; i++) print 900 + 10 * i }' >questions
cat >groups.query <<'END'
table orders (id int, cust text, total int);
param most int;
query orderby([n desc, cust],
  groupby([cust], [count() as n, max(total) as highest], filter(total <= $most, orders)))
END
echo 'finish;' >finish.script
{
    echo 'create table orders (id integer, cust text, total integer);'
    echo '.import --csv --skip 1 orders.csv orders'
    awk '{ printf "select cust, count(*) as n, max(total) from orders where total <= %s group by cust order by n desc, cust;\n", $0 }' questions
} >peer.sql

ask_castor() {
    "$castor" answer groups.query finish.script <questions >castor.out
}

ask_sqlite() {
    sqlite3 :memory: <peer.sql >sqlite.out
}

seconds=$(best_of_three ask_castor)
awk -v rows=$rows -v lines=$lines -v s="$seconds" 'BEGIN {
    printf "groups: %d lines over %d rows: %.3f s, %.1f million rows/s\n", lines, rows, s, rows * lines / s / 1e6
}'
if command -v sqlite3 >/dev/null; then
    peer=$(best_of_three ask_sqlite)
    found=$(grep '^customer' castor.out | md5sum)
    [ "$found" = "$(tr '|' ',' <sqlite.out | md5sum)" ] || echo "groups: the peer found other rows" >&2
    awk -v s="$seconds" -v p="$peer" 'BEGIN { printf "groups: sqlite3 in memory: %.3f s, ratio %.2f\n", p, s / p }'
else
    echo "groups: no sqlite3 to compare with"
fi
