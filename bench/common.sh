# What the benchmark scripts share: they source it. It sets castor to the program that is timed, that of
# crates/castor/out or the one that $CASTOR names, and goes into a folder that is removed at the end.

castor=${CASTOR:-$(cd "$(dirname "${BASH_SOURCE[0]}")/.." && pwd)/crates/castor/out/castor}
if [ ! -x "$castor" ]; then
    echo "$(basename "$0"): no program at $castor; build it with scripts/build.py, or name one in CASTOR" >&2
    exit 1
fi
castor=$(realpath "$castor")
folder=$(mktemp -d)
trap 'rm -rf "$folder"' EXIT
cd "$folder"

# The seconds of a run of a command.
seconds_of() {
    local start
    start=$(date +%s%N)
    "$@"
    awk -v ns=$(($(date +%s%N) - start)) 'BEGIN { printf "%.4f", ns / 1e9 }'
}

# The seconds of the fastest of three runs of a command.
best_of_three() {
    for _ in 1 2 3; do
        seconds_of "$@"
        echo
    done | sort -n | head -n 1
}

# A table of orders with so many rows, as CSV.
orders() {
    awk -v rows="$1" 'BEGIN {
        print "id,cust,total"
        for (i = 0; i < rows; i++) printf "%d,customer %d,%d\n", i, i * 7919 % 10007, i * 37 % 1000
    }'
}
