#!/bin/sh
# All tests: proofs with their must-fail edits, then what is only run. The last line is 'N passed, M failed'.
cd "$(dirname "$0")/.." || exit 2
logs=$(mktemp -d) || exit 2
trap 'rm -rf "$logs"' EXIT
pass=0 fail=0
ok() { pass=$((pass + 1)); printf 'ok   %s\n' "$1"; }
no() { fail=$((fail + 1)); printf 'FAIL %s\n' "$1"; }
step() { # NAME COMMAND..: one test, its output shown only where it fails
    name=$1; shift
    if "$@" >"$logs/step" 2>&1; then ok "$name"; else tail -n 40 "$logs/step"; no "$name"; fi
}
every_crate_listed() {
    for folder in crates/*/; do
        crate=$(basename "$folder")
        grep -Eq "^$crate( staticlib)?:" crates.txt || { echo "crates/$crate is not listed in crates.txt"; return 1; }
    done
}
proved() { # the prover's gate, which refuses what is not laid out and counts crates, must-fail edits and programs
    rt ci >"$logs/proofs" 2>&1; status=$?
    cat "$logs/proofs"
    last=$(tail -n 1 "$logs/proofs")
    case $last in
    *[0-9]' passed, '*[0-9]' failed')
        n=${last%% passed,*}; m=${last##* passed, }; m=${m%% failed*}
        [ "$status" -eq 0 ] || [ "$m" -gt 0 ] || m=1
        pass=$((pass + n)) fail=$((fail + m)) ;;
    *) fail=$((fail + 1)) ;;
    esac
    [ "$status" -eq 0 ] || return
    # It lets an edit through that cannot be tried, which shows nothing of a contract: here such an edit fails.
    grep -q '^rt: ok' "$logs/proofs" || no 'the gate says that all is well'
    bad=$(sed -n 's/^rt: ok.*, \([0-9][0-9]*\) bad.*/\1/p' "$logs/proofs" | tail -n 1)
    [ "${bad:-0}" -eq 0 ] || no "$bad must-fail edits could not be tried"
    # What it proved, built and ran is the program that is run below.
    mkdir -p target/bin && cp crates/show/out/show target/bin/show
}
aside() { # NAME COMMAND..: begins a test beside the others; its name, output and status go to files
    aside=$((aside + 1))
    printf '%s\n' "$1" >"$logs/$aside.name"; shift
    { "$@" >"$logs/$aside.log" 2>&1; echo $? >"$logs/$aside.status"; } &
}
counted() { # NAME LOG STATUS: a runner that counts its own tests, each of which counts here
    passed=$(sed -n 's/^test result: .* \([0-9]*\) passed; .*/\1/p' "$2" | awk '{ n += $1 } END { print n + 0 }')
    failed=$(sed -n 's/^test result: .*; \([0-9]*\) failed; .*/\1/p' "$2" | awk '{ n += $1 } END { print n + 0 }')
    [ "$3" -eq 0 ] && [ "$failed" -eq 0 ] && [ "$passed" -gt 0 ] || { tail -n 60 "$2"; [ "$failed" -gt 0 ] || failed=1; }
    printf '%s: %s passed, %s failed.\n' "$1" "$passed" "$failed"
    pass=$((pass + passed)) fail=$((fail + failed))
}

step 'every crate is listed' every_crate_listed
proved
step 'the library for C and Rust' make -s library
# What is only run needs one core each, so it runs side by side.
aside=0
for script in tests/*.sh; do
    [ "$script" = tests/run.sh ] || aside "$script" sh "$script"
done
aside 'the second implementation' cargo test --release --offline --quiet --manifest-path tests/reference/Cargo.toml
wait
for number in $(seq "$aside"); do
    name=$(cat "$logs/$number.name") log=$logs/$number.log status=$(cat "$logs/$number.status")
    case $name in
    tests/*) if [ "$status" -eq 0 ]; then ok "$name"; else tail -n 40 "$log"; no "$name"; fi ;;
    *) counted "$name" "$log" "$status" ;;
    esac
done
echo "$pass passed, $fail failed"
[ "$fail" -eq 0 ]
