#!/bin/sh
# Builds the oracle: the original Rust text, unchanged, over the stand-ins in rust/.
#   build.sh DOCS    DOCS is the folder that holds the original's src/
# The text is held to original.sha256, copied beside the stand-ins into target/ (ignored by git) and compiled there,
# with no network. Exit status: 0 built, 2 no text or no cargo at hand, 1 anything else.
set -eu
if ! docs=$(cd "$1" 2> /dev/null && pwd) || [ ! -f "$docs/src/dp/master.rs" ]; then
    echo "oracle: no original text at $1" >&2
    exit 2
fi
cd "$(dirname "$0")"
if ! command -v cargo > /dev/null 2>&1; then
    echo "oracle: cargo is not at hand" >&2
    exit 2
fi
sums=$(pwd)/original.sha256
( cd "$docs" && sha256sum --quiet --check "$sums" ) >&2 || {
    echo "oracle: the text at $docs is not the one of original.sha256" >&2
    exit 1
}
tree=target/tree
mkdir -p "$tree"
# a file is written only where it differs, so that cargo builds only what changed
put() {
    mkdir -p "$(dirname "$2")"
    cmp -s "$1" "$2" || { rm -f "$2"; cp "$1" "$2"; }
}
( cd rust && find . -type f ) | while read -r f; do put "rust/$f" "$tree/$f"; done
s=$tree/profirust/src
# these three are included by the small files in src/dp, which add readers of private fields
for f in peripheral master peripheral_set; do put "$docs/src/dp/$f.rs" "$s/orig/$f.rs"; done
# these five stand in their own places
for f in lib.rs time.rs consts.rs dp/mod.rs fdl/mod.rs; do put "$docs/src/$f" "$s/$f"; done
cd "$tree"
build() {
    CARGO_TARGET_DIR=../cargo cargo build --offline --locked "$@" > ../build.log 2>&1 || {
        tail -60 ../build.log >&2
        exit 1
    }
}
build --release -p oracle -p compare
build --profile speed -p bench
