#!/bin/sh
# Builds the static library of the proved reader and the Rust programs, and runs one of them:
#
#     bench/run.sh compare [NUMBER OF RANDOM TABLES]
#     bench/run.sh bench
#
# It works from any current folder, builds under target/ alone, and ends with a status other than 0 where anything fails.
set -eu

case "${1-}" in
compare | bench) ;;
*)
    echo "usage: bench/run.sh compare [NUMBER OF RANDOM TABLES] | bench" >&2
    exit 2
    ;;
esac
program=$1
shift

repository=$(CDPATH= cd -- "$(dirname -- "$0")/.." && pwd)
cd -- "$repository"

tools/build.sh capi
NODERUN_STATICLIB=$repository/target/staticlib
export NODERUN_STATICLIB
cargo build --quiet --release --offline --locked --manifest-path bench/Cargo.toml --target-dir target/bench --bin "$program"
exec "target/bench/release/$program" "$@"
