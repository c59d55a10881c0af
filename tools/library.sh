# What tools/install, bench/run and examples/c share; to be sourced. It says where the proved library is, and makes it where it must.
set -euo pipefail

root=$(cd "$(dirname "${BASH_SOURCE[0]}")/.." && pwd -P)
library=$root/target/staticlib/librelay_c.a

# Whether the library is there and no file of the crates is newer. What rt keeps in a crate's out/ is no source.
library_is_current() {
    [ -f "$library" ] &&
        [ -z "$(cd "$root" && find crates.txt crates -regex 'crates/[^/]*/out' -prune -o -newer "$library" -print -quit)" ]
}

# Proves and builds the library where it must, which takes some minutes. What that prints goes to standard error.
make_library() {
    library_is_current || {
        for crate in "$root"/crates/*/; do
            mkdir -p "${crate}out" # rt would make them, and the crates' folders newer
        done
        (cd "$root/crates/relay_c" && rt lib) >&2 && mkdir -p "${library%/*}" &&
            cp "$root/crates/relay_c/out/librelay_c.a" "$library.$$" && mv -f "$library.$$" "$library"
    }
}
