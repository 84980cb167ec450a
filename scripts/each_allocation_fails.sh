#!/usr/bin/env bash
# Runs the proved program over the stored question with each of its allocations failing in turn, until a run
# meets none, and says how many points it tried. With want of memory the status is 11, one line tells of it, and
# what went out is a prefix of the reply. While the program still takes its words, before the command runs, want
# of memory means no words, which is status 2.
#
# The allocations fail outside the program: a library before libc's answers the one of a given number, counted
# from 1, with no memory. It is compiled here by cc. The program is that of crates/castor/out, or the one that
# $CASTOR names.
set -eu

cd "$(dirname "$0")/../crates/castor"
castor=$(realpath "${CASTOR:-out/castor}")
stored=$PWD
folder=$(mktemp -d)
trap 'rm -rf "$folder"' EXIT
cp data/* "$folder"

cat >"$folder/failing.c" <<'END'
#include <stdio.h>
#include <stdlib.h>

void *__libc_malloc(size_t size);
void *__libc_realloc(void *place, size_t size);

static unsigned long calls;
static int has_ended;

static int fails(void)
{
    const char *number = getenv("FAILING_ALLOCATION");
    return !has_ended && ++calls == (number ? strtoul(number, 0, 10) : 0);
}

void *malloc(size_t size)
{
    return fails() ? 0 : __libc_malloc(size);
}

void *realloc(void *place, size_t size)
{
    return fails() ? 0 : __libc_realloc(place, size);
}

/* What the run met, for the script to know where to end. */
__attribute__((destructor)) static void tell(void)
{
    has_ended = 1;
    FILE *file = fopen("met", "w");
    if (file) {
        fprintf(file, "%lu\n", calls);
        fclose(file);
    }
}
END
cc -O1 -shared -fPIC -o "$folder/failing.so" "$folder/failing.c"
cd "$folder"

complain() {
    echo "allocation $1: $2" >&2
    cat out err >&2
    exit 1
}

is_prefix() {
    cmp -s out <(head -c "$(wc -c <out)" "$stored/stdout")
}

in_words=0
point=1
while :; do
    status=0
    rm -f met
    FAILING_ALLOCATION=$point LD_PRELOAD=$folder/failing.so "$castor" $(cat "$stored/args") \
        <"$stored/stdin" >out 2>err || status=$?
    if [ "$(cat met)" -lt "$point" ]; then
        [ "$status" -eq 0 ] && cmp -s out "$stored/stdout" || complain "$point" "no allocation failed, and the reply is another"
        break
    fi
    case $status in
        2) in_words=$((in_words + 1)) ;;
        11)
            grep -qx 'castor: memory' err || complain "$point" "no line tells of it"
            is_prefix || complain "$point" "what went out is no prefix of the reply"
            ;;
        *) complain "$point" "status $status" ;;
    esac
    point=$((point + 1))
done
echo "$((point - 1)) points tried: in $in_words the program got no words, in all others it ended with status 11"
