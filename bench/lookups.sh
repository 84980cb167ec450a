#!/usr/bin/env bash
# Looks up orders of three ints by number: LINES (1,000,000) questions by a column in which each value stands once, and
# 20,000 by one in which each value stands in 100 rows. Prints the seconds of the questions (best of three runs) and how
# they compare with those of sqlite3 with the index that fits, through a prepared statement and a mapped file, and of
# cdb, a constant database. Each of them writes each reply by itself, and all replies are compared. ROWS (10,000) names
# another number of rows.
#
# The peers are programs in C, which need a compiler and the libraries of Debian's libsqlite3-dev and libcdb-dev;
# CFLAGS may say where these are.
set -eu

rows=${ROWS:-10000}
lines=${LINES:-1000000}
peers=$(cd "$(dirname "${BASH_SOURCE[0]}")/peers" && pwd)
. "$(dirname "${BASH_SOURCE[0]}")/common.sh"

customers=$(((rows + 99) / 100))
awk -v rows="$rows" -v customers="$customers" 'BEGIN {
    print "id,customer,total"
    for (i = 0; i < rows; i++) printf "%d,%d,%d\n", i, i % customers, i * 37 % 1000
}' >orders.csv
echo 'finish;' >finish.script

# So many numbers below a limit.
numbers() {
    awk -v lines="$1" -v limit="$2" 'BEGIN { for (i = 0; i < lines; i++) print i * 7919 % limit }'
}

# Compiles a peer with its library, and says so where it can't.
compile() {
    # shellcheck disable=SC2086
    cc -O2 -o "$1" "$peers/$1.c" ${CFLAGS:-} "-l$2" 2>compile.log ||
        { echo "lookups: no $2 to compare with: it needs a C compiler and Debian's lib$2-dev" && return 1; }
}

have_sqlite=yes
have_cdb=yes
compile sqlite_lookups sqlite3 || have_sqlite=
compile cdb_lookups cdb || have_cdb=
if [ -n "$have_sqlite" ] && ! command -v sqlite3 >/dev/null; then
    echo "lookups: no sqlite3 to make its database with"
    have_sqlite=
fi

ask_castor() {
    "$castor" ask "$column.image" <questions >castor.out
}

ask_sqlite() {
    ./sqlite_lookups orders.sqlite "$column" <questions >sqlite.out
}

ask_cdb() {
    ./cdb_lookups ask "$column.cdb" <questions >cdb.out
}

# The seconds of a peer, and how castor's compare with them.
compare() {
    local peer
    peer=$(best_of_three "ask_$1")
    cmp -s castor.out "$1.out" || echo "lookups: $1 gave other replies" >&2
    awk -v name="$1" -v s="$seconds" -v p="$peer" 'BEGIN {
        printf "lookups:   %s: %.3f s, castor takes %.2f times as long\n", name, p, s / p
    }'
}

# Asks so many questions by a column, the first of the rows being 1.
look_up() {
    column=$1
    numbers "$3" "$4" >questions
    echo "table orders (id int, customer int, total int); param x int;
query hash(select([$column], orders) as k, filter($column = k.$column, orders), [\$x])" >"$column.query"
    "$castor" build "$column.query" finish.script "$column.image"
    seconds=$(best_of_three ask_castor)
    printf 'lookups: %d by %s over %d rows: %.3f s\n' "$3" "$column" "$rows" "$seconds"
    if [ -n "$have_sqlite" ]; then
        compare sqlite
    fi
    if [ -n "$have_cdb" ]; then
        ./cdb_lookups make "$column.cdb" "$2" <orders.csv
        compare cdb
    fi
}

if [ -n "$have_sqlite" ]; then
    sqlite3 orders.sqlite 'create table orders (id integer, customer integer, total integer)' \
        '.import --csv --skip 1 orders.csv orders' \
        'create unique index ids on orders (id)' 'create index customers on orders (customer)'
fi
look_up id 1 "$lines" "$rows"
look_up customer 2 20000 "$customers"
