#!/usr/bin/env bash
# Compares the port's answers with the original's, which is built from a folder of its sources (see build.sh).
#   compare.sh SOURCES [COUNT [SEED]]
# Compares the worked commands, all exhaustive modes and COUNT random commands, 1000000 unless said. Ends at the first
# difference with status 1, or with the line 'N passed, 0 failed'.
set -euo pipefail
here=$(cd "$(dirname "${BASH_SOURCE[0]}")" && pwd)
if [ $# -lt 1 ] || [ $# -gt 3 ]; then
  echo "usage: compare.sh SOURCES [COUNT [SEED]]" >&2
  exit 2
fi
build=$(mktemp -d)
trap 'rm -rf "$build"' EXIT
original=$("$here/build.sh" "$1" "$build")
crate=$here/../crates/rsc_compare
if ! (cd "$crate" && rt run < /dev/null > "$build/log" 2>&1); then
  cat "$build/log" >&2
  exit 1
fi
python3 "$here/compare.py" "$original" "$crate/out/rsc_compare" "${2:-1000000}" "${3:-1}"
