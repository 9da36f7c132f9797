#!/usr/bin/env bash
# Builds a program out of the original's sources, which stay where they are and aren't copied.
#   build.sh SOURCES OUT [MAIN.rs NAME [FLAGS..]]
# SOURCES is a checkout of regex-automata or of the repository around it, or any folder that holds the modules as
# src/util/NAME.rs, NAME.rs or src--src--util--NAME.rs.txt. The program is OUT/NAME; without a main file it is OUT/original,
# which answers the commands of README.md. FLAGS go to rustc. A main file of another folder takes the original's modules by
#   mod util { include!(env!("ORIGINAL_MODULES")); }
set -euo pipefail
here=$(cd "$(dirname "${BASH_SOURCE[0]}")" && pwd)
if [ $# -lt 2 ] || [ $# -eq 3 ]; then
  echo "usage: build.sh SOURCES OUT [MAIN.rs NAME [FLAGS..]]" >&2
  exit 2
fi
mkdir -p "$2"
sources=$(cd "$1" && pwd)
out=$(cd "$2" && pwd)
main=${3:-$here/rust/main.rs}
name=${4:-original}
shift $(($# < 4 ? $# : 4))

# Where a module lies.
source_of() {
  local file
  for file in "src/util/$1.rs" "regex-automata/src/util/$1.rs" "$1.rs" "src--src--util--$1.rs.txt"; do
    if [ -e "$sources/$file" ]; then
      echo "$sources/$file"
      return
    fi
  done
  echo "build.sh: no module $1 of the original in $sources" >&2
  return 1
}

# The modules by their paths, and stand-ins for modules that they name but never call here.
list_modules() {
  local module path
  for module in alphabet captures escape int look primitives search utf8; do
    path=$(source_of "$module")
    printf '#[path = "%s"]\npub mod %s;\n' "$path" "$module"
  done
  for module in interpolate wire; do
    printf '#[path = "%s"]\npub mod %s;\n' "$here/rust/shims/$module.rs" "$module"
  done
}
list_modules > "$out/modules.rs"
python3 "$here/word_table.py" > "$out/word_table.rs"

# The word table is a crate of its own, as the original's dependency.
export ORIGINAL_MODULES=$out/modules.rs WORD_TABLE=$out/word_table.rs
flags=(--edition 2021 -C opt-level=3)
rustc "${flags[@]}" --crate-type rlib --crate-name regex_syntax \
  -o "$out/libregex_syntax.rlib" "$here/rust/shims/regex_syntax.rs"

# The original's features that the port covers, and perf-inline, a default, which changes speed alone.
for feature in std alloc syntax unicode-perl unicode-word-boundary perf-inline; do
  flags+=(--cfg "feature=\"$feature\"")
done
rustc "${flags[@]}" --check-cfg 'cfg(feature, values(any()))' --crate-name "$name" \
  --extern regex_syntax="$out/libregex_syntax.rlib" -o "$out/$name" "$@" "$main"
echo "$out/$name"
