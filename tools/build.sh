#!/usr/bin/env bash
# Proves and builds what is run outside rt, and puts it where programs and scripts look for it:
#
#     tools/build.sh noderun     the program, target/bin/noderun
#     tools/build.sh capi        the static library for C and Rust, target/staticlib/libcapi.a
#
# It works from any current folder. What rt says of the proofs is shown only where it fails.
set -euo pipefail
cd "$(dirname "$0")/.."

# build NAME FILE FOLDER COMMAND..: rt's command in the crate NAME, and then FILE of its out/ goes to FOLDER
build() {
    local name=$1 file=$2 folder=$3
    shift 3
    mkdir -p "$folder"
    if ! (cd "crates/$name" && "$@" </dev/null) >"target/build-$name.log" 2>&1; then
        cat "target/build-$name.log" >&2
        exit 1
    fi
    cp "crates/$name/out/$file" "$folder/$file"
}

case "${1-}" in
noderun) build noderun noderun target/bin rt run ;;
capi) build capi libcapi.a target/staticlib rt lib ;;
*)
    echo "usage: tools/build.sh noderun | capi" >&2
    exit 2
    ;;
esac
