#!/usr/bin/env bash
# Proves the planner and writes it as an archive for C and Rust to link, DIR/libzulagbemi.a: bindings/archive.sh DIR
# Where ZULAGBEMI_LIB_DIR names a folder with an archive built before, that one is taken and nothing is proved.
set -euo pipefail
[ $# -eq 1 ] || { echo "usage: bindings/archive.sh DIR" >&2; exit 2; }
mkdir -p "$1"
folder=$(cd "$1" && pwd)
if [ -n "${ZULAGBEMI_LIB_DIR:-}" ]; then
  from=$(cd "$ZULAGBEMI_LIB_DIR" && pwd)
  [ "$from" = "$folder" ] || cp "$from/libzulagbemi.a" "$folder/libzulagbemi.a"
  exit
fi
cd "$(dirname "$0")/.."
command -v rt > /dev/null || {
  echo "bindings/archive.sh: the Rattle toolchain's command rt is not on the PATH; put it there, or let ZULAGBEMI_LIB_DIR name a folder with libzulagbemi.a" >&2
  exit 1
}
mkdir -p target
echo "bindings/archive.sh: proving the planner; each crate is named when its turn comes" >&2
if ! (cd crates/api && rt lib) 2>&1 | tee target/archive.log | { grep --line-buffered '^rt: chose' >&2 || true; }; then
  cat target/archive.log >&2
  exit 1
fi
cp crates/api/out/libapi.a "$folder/libzulagbemi.a"
