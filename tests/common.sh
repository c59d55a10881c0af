# What tests/run and tests/valgrind share; to be sourced. It builds the test of the header and the harness against the static library,
# and runs both.
set -euo pipefail
cd "$(dirname "${BASH_SOURCE[0]}")/.."

name=$(basename "$0")
library=target/staticlib/librelay_c.a
out=target/tests
if [ ! -f "$library" ]; then
    echo "tests/$name: $library is missing" >&2
    exit 1
fi
mkdir -p "$out"

warnings=(-Wall -Wextra -Werror -pedantic)

# A C program and its flags: build_c SOURCE PROGRAM [FLAG ...].
build_c() {
    cc -std=c11 "${warnings[@]}" "${@:3}" -I include "$1" "$library" -o "$2"
}

build() {
    build_c tests/header.c "$out/header"
    if command -v c++ >/dev/null; then
        c++ -std=c++11 "${warnings[@]}" -I include -fsyntax-only -x c++ tests/header.c
    fi
    rustc --edition 2021 -O -D warnings tests/main.rs -o "$out/harness" -L native=target/staticlib -l static=relay_c
}

# The count on the last line of a log.
passed() {
    sed -n '$s/^[a-z]*: \([0-9]*\) passed, 0 failed$/\1/p' "$1"
}

# Runs both, the harness with these arguments and each under the command that `under` holds. The last line says how many passed.
run_both() {
    local header harness
    "${under[@]}" "$out/header" | tee "$out/header.log"
    "${under[@]}" "$out/harness" "$@" | tee "$out/harness.log"
    header=$(passed "$out/header.log")
    harness=$(passed "$out/harness.log")
    if [ -z "$header" ] || [ -z "$harness" ]; then
        echo "tests/$name: a count is missing" >&2
        exit 1
    fi
    echo "$((header + harness)) passed, 0 failed"
}
