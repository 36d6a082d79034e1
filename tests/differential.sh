#!/bin/sh
# The compiled library beside the second implementation, compared after every call: for 100 seconds, or as the flags say.
cd "$(dirname "$0")/.." || exit 2
log=$(mktemp) || exit 2
trap 'rm -f "$log"' EXIT
folder=tests/differential/target
build() { cargo build --release --offline --quiet --manifest-path tests/differential/Cargo.toml "$@"; }
slips() { # faults put in on purpose: each must be found and its history cut down
    build --features slips --target-dir "$folder/slips" || return 1
    for slip in 1 2 3 4 5 6 7 8 9 10 11 12; do
        "$folder/slips/release/differential" --histories 32 --slip "$slip" >"$log"
        [ $? -eq 1 ] && grep '^cut down' "$log" || { echo "slip $slip was not found"; return 1; }
    done
}

make -s library >"$log" 2>&1 || { tail -n 20 "$log"; exit 1; }
build || exit 1
case ${1-} in
--slips) slips ;;
--valgrind) # small books lent without guard cells, so that the memory checker sees the edges of what is lent
    valgrind --error-exitcode=1 "$folder/release/differential" --no-guards --histories 200 ;;
'') "$folder/release/differential" --seconds 100 ;;
*) # --seconds N, --long, --seed S, --histories N, --history I, --show, --table
    "$folder/release/differential" "$@" ;;
esac
