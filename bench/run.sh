#!/bin/sh
# The table of docs/BENCH.md: the book beside the same calls in C and beside peers, as ratios of least times in one run. --write puts it there.
# Needs rt, make and, from Debian, the packages below; BOOK_LIB=FOLDER takes libunit.a from there instead of building it.
set -e
cd "$(dirname "$0")/.."
packages="gcc g++ valgrind libkdtree++-dev libboost-dev libnanoflann-dev libsqlite3-dev"
missing=$(for p in $packages; do dpkg -s "$p" >/dev/null 2>&1 || echo "$p"; done)
# shellcheck disable=SC2086
[ -z "$missing" ] || apt-get install -y $missing >/dev/null || { apt-get update && apt-get install -y $missing; } >/dev/null
out=$(mktemp -d)
trap 'rm -rf "$out"' EXIT

lib=${BOOK_LIB:-target/staticlib}
[ -n "${BOOK_LIB:-}" ] || make -s library >"$out/log" 2>&1 || { tail -n 20 "$out/log"; exit 1; }
flags="-O3 -Wall -Wextra -Werror -Iinclude -Ibench/c -Ibench/peers -Ibench/turns"
# shellcheck disable=SC2086
for f in bench/c/*.c bench/turns/*.c bench/peers/*.c; do gcc $flags -c "$f" -o "$out/$(echo "$f" | tr / _).o"; done
# shellcheck disable=SC2086
for f in bench/peers/*.cc; do g++ -std=c++17 $flags -c "$f" -o "$out/$(echo "$f" | tr / _).o"; done

# Code that lies elsewhere runs at another speed, so each program is built with its code moved on by so many bytes.
program() { # NAME BYTES
    printf '.text\n.space %s\n.section .note.GNU-stack,"",@progbits\n' "$2" | gcc -c -x assembler - -o "$out/pad.o"
    both="$out/bench_turns_turns.c.o $out/bench_turns_orders.c.o $out/bench_turns_pools.c.o $out/bench_turns_rows.c.o"
    peers=
    [ "$1" != peers ] || peers=$(echo "$out"/bench_peers_*.o)
    # shellcheck disable=SC2086
    g++ "$out/pad.o" "$out/bench_turns_$1.c.o" $both "$out"/bench_c_*.o $peers "$lib/libunit.a" -lsqlite3 -o "$out/$1"
}

for bytes in 16 32 48 64; do
    program calls $bytes
    "$out/calls" >>"$out/lines"
    program passes $bytes
    "$out/passes" >>"$out/lines"
done
for bytes in 16 48; do
    program histories $bytes
    "$out/histories" >>"$out/lines"
    program trays $bytes
    "$out/trays" >>"$out/lines"
done
program instructions 16
valgrind -q --tool=callgrind --instr-atstart=no --callgrind-out-file="$out/count" "$out/instructions" 2>/dev/null
awk -f bench/counts.awk "$out"/count.* >>"$out/lines"
for bytes in 16 32 48 64; do
    program peers $bytes
    "$out/peers" >>"$out/lines"
done

awk -f bench/table.awk "$out/lines" >"$out/table"
cat "$out/table"
[ "${1:-}" = --write ] || exit 0
awk -v table="$out/table" '
    /^<!-- end of the table -->$/ { inside = 0 }
    !inside { print }
    /^<!-- the table -->$/ { inside = 1; while ((getline line < table) > 0) print line }
' docs/BENCH.md >"$out/page"
cat "$out/page" >docs/BENCH.md
