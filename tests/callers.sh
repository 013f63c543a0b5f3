#!/usr/bin/env bash
# Holds include/felica.h, the programs of c/ and rust/felica to the archive target/staticlib/libfelica_c.a.
# A line for each test; the last is "callers: ok". Needs gcc, g++, binutils and cargo.
set -euo pipefail
cd "$(dirname "$0")/.."
root=$PWD
archive=$root/target/staticlib/libfelica_c.a

fail() {
    echo "callers: failed: $*" >&2
    exit 1
}

[ -f "$archive" ] || fail "target/staticlib/libfelica_c.a is missing; make it with: bash c/archive"
for tool in gcc g++ cargo rustdoc nm size; do
    command -v "$tool" > /dev/null || fail "$tool is missing"
done

work=$(mktemp -d)
trap 'rm -rf "$work"' EXIT
warnings=(-Wall -Wextra -Wpedantic -Werror)

build_example() {
    local program=$1
    shift
    gcc -std=c11 "${warnings[@]}" -Wconversion "$@" -I include c/example.c "$archive" -o "$program"
}

# The program's output on its samples, and what it says of arguments that are no frames in hexadecimal.
try_example() {
    local program=$1
    "$program" > "$work/out" || fail "the example ends with $?"
    diff c/example.expected "$work/out" || fail "the example's output is not c/example.expected"
    try_bad "$program" 'character 2 of "0G" is no hexadecimal digit' 0G
    try_bad "$program" 'the last digit of "061" has no second one' 061
    try_bad "$program" 'is longer than 1024 bytes' "$(printf '%02050d' 0)"
    "$program" "$(printf '%02048d' 0)" > "$work/out" || fail "the example ends with $?"
    grep -q 'refused: 2,' "$work/out" || fail "a frame of 1024 bytes is not refused by 2"
}

# Bad hexadecimal between two frames: status 1, the message, and both frames parsed all the same.
try_bad() {
    local program=$1 message=$2 bad=$3 status=0
    "$program" 0204 "$bad" 01 > "$work/out" 2> "$work/err" || status=$?
    [ "$status" -eq 1 ] || fail "the example ends with $status on bad hexadecimal"
    grep -qF "$message" "$work/err" || fail "the example does not say: $message"
    [ "$(grep -c refused: "$work/out")" -eq 2 ] || fail "the example stops at bad hexadecimal"
}

# An enum of the header, a line each: the name behind FELICA_, the value, and the comment as far as a semicolon.
enumerators() {
    sed -nE "/^enum $1 /,/^}/ s/^ *FELICA_(\w+) = (\w+),? *(\/\* ([^;]*)(;.*)? \*\/)?$/\1 \2 \4/p" include/felica.h
}

# The codes and the grounds of the header are those of felica_format, and the example says the grounds in its words.
try_names() {
    local format=crates/felica_format/src
    sed -nE 's/^pub const (\w+_COMMAND_CODE): u8 = (\w+);$/\1 \2 /p' "$format/constants.rt" > "$work/codes"
    [ "$(wc -l < "$work/codes")" -eq 33 ] || fail "$format/constants.rt has not 33 codes"
    enumerators felica_code | diff "$work/codes" - || fail "the header's codes are not those of $format/constants.rt"

    sed -nE 's/^ +(\w+) = ([0-9]+),$/\1 \2/p' "$format/error.rt" | sed -E 's/([a-z])([A-Z])/\1_\2/g; s/.*/\U&/' > "$work/grounds"
    [ "$(wc -l < "$work/grounds")" -eq 22 ] || fail "$format/error.rt has not 22 grounds"
    enumerators felica_refusal | grep -v '^OK 0 ' > "$work/refusals"
    cut -d ' ' -f 1,2 "$work/refusals" | diff "$work/grounds" - || fail "the header's grounds are not those of $format/error.rt"

    sed -n '/ grounds\[\] = {/,/^}/ s/^    "\(.*\)",$/\1/p' c/example.c | grep -vx 'a command' > "$work/texts"
    cut -d ' ' -f 3- "$work/refusals" | diff "$work/texts" - || fail "c/example.c says the grounds in other words than the header"
}

# What the header says of the archive: its functions and no other, what the writer needs from outside and the others do not, and no data.
try_archive() {
    sed -nE 's/^struct \w+ (felica_\w+)\(.*/\1/p' include/felica.h | sort > "$work/declared"
    [ "$(wc -l < "$work/declared")" -eq 7 ] || fail "the header does not declare seven functions"
    nm --defined-only --extern-only "$archive" | awk 'NF == 3 { print $3 }' | sort | diff "$work/declared" - ||
        fail "the archive does not define the header's functions alone"
    printf 'felica_c_write.o %s\n' memcpy memset > "$work/needed"
    nm --undefined-only --print-file-name "$archive" | sed -E 's/.*:(\w+\.o): +U (\w+)$/\1 \2/' | diff "$work/needed" - ||
        fail "the archive does not need what the header says"
    size "$archive" | awk 'NR > 1 && $2 + $3 > 0 { data = 1 } END { exit data }' || fail "the archive has data"
}

# Runs the tests of rust/felica (--tests) or the examples in its documentation (--doc), and says how many ran.
run_rust() {
    (cd rust/felica && cargo test --quiet --release --offline "$1" > "$work/out" 2>&1) || {
        cat "$work/out" >&2
        fail "cargo test $1"
    }
    awk '/^test result: ok\./ { ran += $4 } END { print ran + 0; exit ran == 0 }' "$work/out" || fail "cargo test $1 ran no test"
}

gcc -std=c11 "${warnings[@]}" -fsyntax-only -x c include/felica.h
echo "header as C11: ok"
g++ -std=c++17 "${warnings[@]}" -fsyntax-only -x c++ include/felica.h
echo "header as C++17: ok"

try_names
echo "names in the header: ok"
try_archive
echo "symbols of the archive: ok"

build_example "$work/example"
try_example "$work/example"
echo "C example: ok"

gcc -std=c11 "${warnings[@]}" -I include c/lent.c "$archive" -o "$work/lent"
"$work/lent" || fail "c/lent.c as C11"
g++ -std=c++17 "${warnings[@]}" -I include -x c++ c/lent.c -x none "$archive" -o "$work/lent"
"$work/lent" || fail "c/lent.c as C++17"
echo "lent memory, C11 and C++17: ok"

sanitize=(-g -O1 "-fsanitize=address,undefined" -fno-sanitize-recover=all)
echo 'int main(void) { return 0; }' > "$work/empty.c"
if gcc "${sanitize[@]}" "$work/empty.c" -o "$work/empty" 2> "$work/err" && "$work/empty" 2> "$work/err"; then
    build_example "$work/sanitized" "${sanitize[@]}"
    try_example "$work/sanitized"
    echo "C example, sanitized: ok"
else
    echo "C example, sanitized: left out, gcc has no sanitizers here"
fi

export CARGO_TARGET_DIR=$root/target/callers FELICA_LIB=$root/target/staticlib
tests=$(run_rust --tests)
examples=$(run_rust --doc)
echo "Rust, $tests tests and $examples examples: ok"

status=0
FELICA_LIB=$work cargo check --quiet --offline --manifest-path rust/felica/Cargo.toml > "$work/out" 2>&1 || status=$?
[ "$status" -ne 0 ] || fail "cargo check passes without the archive"
grep -q 'bash c/archive' "$work/out" || fail "cargo check does not say how the archive is made"
echo "Rust without the archive: ok"

echo "callers: ok"
