#!/usr/bin/env bash
# Opens an image of about 100 MB, an index of orders by customer, and builds it again. Prints the seconds and the
# bytes a second of each, best of three runs, and how they compare with sqlite3 on the same rows: its import with
# an index, and its `pragma integrity_check`.
set -eu

rows=5000000
times=${IMAGE_TIMES:-$(cd "$(dirname "${BASH_SOURCE[0]}")/.." && pwd)/crates/castor_image_times/out/castor_image_times}
if [ ! -x "$times" ]; then
    echo "image.sh: no program at $times; build it with rt ci, or name one in IMAGE_TIMES" >&2
    exit 1
fi
times=$(realpath "$times")
CASTOR=$times . "$(dirname "${BASH_SOURCE[0]}")/common.sh"

# The image of the orders, and their rows as CSV.
cat >image.py <<'END'
import sys

rows = int(sys.argv[1])


def number(size, value):
    return value.to_bytes(size, "little", signed=value < 0)


def bucket_hash(text):
    state = 14695981039346656037
    for byte in text + b"\xff":
        state = (state ^ byte) * 1099511628211 % 2**64
    return state


orders = {}
with open("orders.csv", "w") as csv:
    for i in range(rows):
        customer, total = b"customer %d" % (i * 7919 % 10007), i * 37 % 1000
        orders.setdefault(customer, []).append(number(4, i) + bytes([len(customer) - 10]) + customer + number(2, total))
        csv.write("%d,%s,%d\n" % (i, customer.decode(), total))
children = {}
for customer, records in orders.items():
    data = b"".join(records)
    children[customer] = number(4, len(records)) + number(4, len(data)) + data
buckets = 1
while buckets < len(children):
    buckets *= 2
placed = [[] for _ in range(buckets)]
for customer in sorted(children):
    placed[bucket_hash(customer) % buckets].append(bytes([len(customer) - 10]) + customer + children[customer])
starts, entries = [0], []
for bucket in placed:
    entries += bucket
    starts.append(starts[-1] + sum(map(len, bucket)))
most = 2**32 - 1
text = b"\x03" + number(2, 10) + number(2, 14)
row = b"\x04" + number(2, 3) + b"\x01" + number(8, 0) + number(8, most) + text + b"\x01" + number(8, 0) + number(8, 999)
kid = b"\x06" + (number(8, 0) + number(8, most)) * 2 + row
code = b"\x07" + (number(8, 0) + number(8, most)) * 2 + b"\x01" + text + kid + b"\x22" + number(4, 0)
data = number(4, len(children)) + number(4, starts[-1]) + b"".join(number(4, start) for start in starts) + b"".join(entries)
head = b"\x01\x02\x01c" + b"\x03\x00\x02id\x02\x04cust\x00\x05total"
with open("orders.image", "wb") as image:
    image.write(b"CASTIMG1" + head + number(8, len(code)) + number(8, len(data)) + code + data)
END
python3 image.py $rows

size=$(wc -c <orders.image)
for _ in 1 2 3; do
    "$times" times <orders.image
done >times.txt

# The least of the times of a step, in seconds.
least() {
    awk -v step="$1" '$1 == step && (best == "" || $2 < best) { best = $2 } END { printf "%.4f", best / 1e6 }' times.txt
}

open=$(least open)
build=$(least build)
for step in open build; do
    awk -v step=$step -v size="$size" -v s="${!step}" 'BEGIN {
        printf "image: %s %d bytes: %.3f s, %.1f MB/s\n", step, size, s, size / s / 1e6
    }'
done

import_sqlite() {
    rm -f orders.db
    sqlite3 orders.db <<'END'
create table orders (id integer, cust text, total integer);
.mode csv
.import orders.csv orders
create index customers on orders (cust);
END
}

check_sqlite() {
    sqlite3 orders.db 'pragma integrity_check;' >/dev/null
}

if command -v sqlite3 >/dev/null; then
    peer=$(best_of_three import_sqlite)
    awk -v s="$build" -v peer="$peer" 'BEGIN {
        printf "image: sqlite3 import with an index %.3f s; building takes %.2f times that\n", peer, s / peer
    }'
    peer=$(best_of_three check_sqlite)
    awk -v s="$open" -v peer="$peer" 'BEGIN {
        printf "image: sqlite3 integrity_check %.3f s; opening takes %.2f times that\n", peer, s / peer
    }'
else
    echo "image: no sqlite3 to compare with"
fi
