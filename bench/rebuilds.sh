#!/bin/sh
# How many entries the rebuilds of some histories have, and how many rebuilds are of three.
set -e
cd "$(dirname "$0")/.."
out=$(mktemp -d)
trap 'rm -rf "$out"' EXIT
sources="bench/turns/rebuilds.c bench/turns/turns.c bench/turns/orders.c bench/turns/pools.c bench/turns/rows.c"
# shellcheck disable=SC2086
gcc -O3 -Wall -Wextra -Werror -Iinclude -Ibench/c -Ibench/turns -Wl,--wrap=rebuild $sources bench/c/*.c -o "$out/rebuilds"
"$out/rebuilds"
