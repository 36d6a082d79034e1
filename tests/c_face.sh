#!/bin/sh
# The C example, linked to the proved library, prints what it should, byte for byte; and the library asks its surroundings for two names alone.
# Needs rt, make and a C compiler.
set -e
cd "$(dirname "$0")/.."
out=$(mktemp -d)
trap 'rm -rf "$out"' EXIT
make -s library
"${CC:-cc}" -std=c11 -Wall -Wextra -Werror -O2 -Iinclude examples/c/main.c -Ltarget/staticlib -lunit -o "$out/example"
"$out/example" >"$out/printed"
cmp "$out/printed" examples/c/expected.txt
nm -u target/staticlib/libunit.a | awk '$1 == "U" { print $2 }' | sort >"$out/wanted"
printf 'memcpy\nmemset\n' | cmp "$out/wanted" -
