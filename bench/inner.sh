#!/bin/sh
# Instructions of a mean add of each library that is named: without the pass over the pool, and of the tree's insert alone.
# sh bench/inner.sh FOLDER.. (with libunit.a in it)
set -e
cd "$(dirname "$0")/.."
out=$(mktemp -d)
trap 'rm -rf "$out"' EXIT
both="bench/turns/turns.c bench/turns/orders.c bench/turns/pools.c bench/turns/rows.c"
for lib in "$@"; do
    # shellcheck disable=SC2086
    gcc -O3 -Wall -Wextra -Werror -Iinclude -Ibench/c -Ibench/turns bench/turns/inner.c $both bench/c/*.c "$lib/libunit.a" -o "$out/inner"
    rm -f "$out"/count.*
    valgrind -q --tool=callgrind --collect-atstart=no --compress-strings=no --callgrind-out-file="$out/count" "$out/inner" 2>/dev/null
    awk -v lib="$lib" '
        /^desc: Trigger: Client Request: / { name = $0; sub(/.*: /, "", name); insert = 0 }
        /^fn=/ { from = $0 }
        /^cfn=/ { into = $0 ~ /alter::insert::insert/ && from !~ /alter::insert::insert/ }
        edge { insert += $2; edge = 0 }
        /^calls=/ { edge = into }
        /^totals: / && name != "" {
            split(name, part, "|")
            at = part[2] " " part[3]
            count[part[1], at] = $2
            if (part[1] == "add") { calls[at] = part[4]; inner[at] = insert }
            name = ""
        }
        END {
            for (at in calls)
                printf "%s: %s: add without the pass %.0f, insert %.0f\n", lib, at, (count["add", at] - count["pass", at]) / calls[at], inner[at] / calls[at]
        }
    ' "$out"/count.* | sort
done
