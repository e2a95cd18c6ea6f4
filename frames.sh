#!/usr/bin/env bash
# Proves the planner, builds the bench program `frames` and runs it on an STG text: frames.sh [FILE]
set -euo pipefail
here=$(cd "$(dirname "$0")" && pwd)
text=$(realpath "${1:-$here/crates/frames/stdin}")
[ -r "$text" ] || { echo "frames.sh: cannot read $text" >&2; exit 2; }
cd "$here"
mkdir -p target
echo "frames.sh: proving the planner and building frames; each crate is named when its turn comes" >&2
# the run is on an empty text: what it prints is not wanted here
if ! (cd crates/frames && rt run < /dev/null 2>&1 > /dev/null) | tee target/frames.log | { grep --line-buffered '^rt: chose' >&2 || true; }; then
  cat target/frames.log >&2
  exit 1
fi
crates/frames/out/frames < "$text"
