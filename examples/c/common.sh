# What examples/c/run and examples/c/feed share; to be sourced. It builds a program of this folder against the proved library where it
# must. What the building prints goes to standard error.
source "$(dirname "${BASH_SOURCE[0]}")/../../tools/library.sh"

# Builds NAME.c where it must, then runs it: run_built NAME [WORD ...].
run_built() {
    local source=$root/examples/c/$1.c header=$root/include/relay.h
    local program=$root/target/examples/$1
    make_library || exit 2
    if [ ! -x "$program" ] || [ "$source" -nt "$program" ] || [ "$header" -nt "$program" ] || [ "$library" -nt "$program" ]; then
        mkdir -p "$(dirname "$program")" || exit 2
        new=$program.$$
        trap 'rm -f "$new"' EXIT
        "${CC:-cc}" -std=c11 -O2 -Wall -Wextra -Werror -pedantic -I "$root/include" "$source" "$library" -o "$new" >&2 || exit 2
        mv -f "$new" "$program" || exit 2
    fi
    exec "$program" "${@:2}"
}
