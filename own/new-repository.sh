#!/usr/bin/env bash
# Makes a Rattle repository whose crate may call the libraries.
#   own/new-repository.sh FOLDER CRATE [engine [uses]]
# FOLDER must not be there yet. It gets the six libraries, docs, crates.txt, HANDLES, and the crate CRATE with a function that calls rsc_look and a test; with
# 'engine' rsc_engine too, the search of crates/rsc_calls as src/pairs.rt, and a test of it; with 'uses' also
# rsc_replace and rsc_uses, whose callers and lemmas CALLING.md quotes.
# The line of CRATE in crates.txt has the libraries that its files name: a check of CRATE proves those alone.
set -euo pipefail
here=$(cd "$(dirname "${BASH_SOURCE[0]}")/.." && pwd)
if [ $# -lt 2 ] || [ -e "$1" ] || [[ $2 == rsc_* ]] || [ "${3:-engine}" != engine ] || [ "${4:-uses}" != uses ]; then
  echo "usage: own/new-repository.sh FOLDER CRATE [engine [uses]], where FOLDER is not there yet, and CRATE doesn't begin with rsc_" >&2
  exit 2
fi
commit=$(git -C "$here" describe --always --abbrev=40 --exclude '*' --dirty=", changed")
libraries=(rsc_primitives rsc_alphabet rsc_look rsc_search rsc_captures rsc_nfa ${3:+rsc_engine} ${4:+rsc_replace rsc_uses})

mkdir -p "$1/crates/$2/src"
git init -q "$1"
for library in "${libraries[@]}"; do
  tar -C "$here/crates" --exclude=out --exclude=wrong-bodies --exclude=must-not-compile --exclude=must-run --exclude=tested-bodies.edits -cf - "$library" |
    tar -C "$1/crates" -xf -
  grep "^$library:" "$here/crates.txt" >> "$1/crates.txt"
done
echo 'Handles allowed: none.' > "$1/HANDLES"
echo 'out/' > "$1/.gitignore"
cp "$here/LICENSE-MIT" "$here/NOTICE" "$1"
mkdir "$1/docs"
cp "$here"/docs/*.md "$1/docs"
echo "$commit" > "$1/LIBRARIES"
cp "$here/own/first.txt" "$1/crates/$2/src/lib.rt"
if [ -n "${3:-}" ]; then
  cp "$here/crates/rsc_calls/src/pairs.rt" "$1/crates/$2/src"
  mkdir -p "$1/crates/$2/proofs"
  cp -r "$here/crates/rsc_calls/proofs/pairs" "$1/crates/$2/proofs"
  find "$1/crates/$2/proofs" -name '*.antt' -exec sed -i "s/rsc_calls/$2/" {} +
  sed -i 's/^use rsc_look::{Look, LookMatcher, WordClass};$/&\n\n\/\/\/ A search for two patterns.\npub mod pairs;/' "$1/crates/$2/src/lib.rt"
  sed -i 's/^    use super::line_starts;$/    use super::line_starts;\n    use super::pairs::{named, pairs};\n    use rsc_engine::{Builder, find};/; s/^    use rsc_look::{AsciiWord, LookMatcher};$/&\n    use rsc_search::Input;/; $d' "$1/crates/$2/src/lib.rt"
  cat "$here/own/search.txt" >> "$1/crates/$2/src/lib.rt"
fi
used=$(for library in "${libraries[@]}"; do grep -rqw "$library" "$1/crates/$2/src" && echo -n " $library" || true; done)
echo "$2:$used" >> "$1/crates.txt"
# Only a test calls the threads of rsc_uses.
if [ -n "${4:-}" ]; then
  rm "$1/crates/rsc_uses/src/threads.rt"
  sed -i '/^pub mod threads;$/d' "$1/crates/rsc_uses/src/lib.rt"
fi
# Links of pages to what isn't copied become their texts.
python3 - "$1" << 'END'
import pathlib, re, sys
for page in pathlib.Path(sys.argv[1]).rglob("*.md"):
    def kept(link):
        return link[0] if "://" in link[2] or (page.parent / link[2].partition("#")[0]).exists() else link[1]
    page.write_text(re.sub(r"\[([^\]]+)\]\(([^()\s]+)\)", kept, page.read_text(encoding="utf-8")), encoding="utf-8")
END
echo "In $1/crates/$2: 'rt try --test' runs its tests without a proof; 'rt check' proves the crate, and once the libraries of its line in crates.txt. A check"
echo "holds what it proves until it ends, so prove the libraries one by one, and write meanwhile: some 10 minutes on an idle machine${3:+, 10 more for rsc_engine}${4:+, 10 more for rsc_uses}."
echo "  (cd $1/crates && for library in ${libraries[*]}; do (cd \$library && rt check) || break; done)"
echo "docs/DEFINITIONS.md explains what contracts say."
