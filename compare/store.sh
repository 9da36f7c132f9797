#!/usr/bin/env bash
# Stores a fixed list of commands and the original's answers in crates/rsc_compare, whose stdin and stdout they are: the gate
# replays them with no Rust at hand. The original is built from a folder of its sources (see build.sh).
#   store.sh SOURCES
set -euo pipefail
here=$(cd "$(dirname "${BASH_SOURCE[0]}")" && pwd)
if [ $# -ne 1 ]; then
  echo "usage: store.sh SOURCES" >&2
  exit 2
fi
build=$(mktemp -d)
trap 'rm -rf "$build"' EXIT
original=$("$here/build.sh" "$1" "$build")
crate=$here/../crates/rsc_compare
python3 "$here/store.py" "$original" "$crate/stdin" "$crate/stdout"
