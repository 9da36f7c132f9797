#!/usr/bin/env bash
# Proves and tests the repository, and says what it does as it goes.
#
#   ./test.sh          proves each crate from nothing (on rattle-kit-13f each that hasn't passed on this machine in this state); runs all tests and
#                      programs; compares the documents with the sources
#   ./test.sh all      tries the wrong bodies too; this is the gate
#   ./test.sh quick    proves nothing: compares the documents, and runs all tests, the programs and their plain runs; it ends with what it leaves out
set -euo pipefail
cd "$(dirname "$0")"

kit=$(rt version)
if grep -qF "\`${kit%% *}\`" README.md && grep -qF "\`${kit#* }\`" README.md; then
  echo "$kit, on which it has passed (README.md)"
else
  echo "$kit, which README.md doesn't name"
fi

step() {
  printf '\n[after %d min] %s\n' $((SECONDS / 60)) "$1"
}

case ${1:-} in
  '' | all)
    step "sources and documents: layers, lengths of lines, quotations, unused lemmas, the texts of wrong bodies"
    python3 -m doctest gate/heads.py gate/edits.py gate/wrong-bodies.py gate/calling.py gate/defined.py gate/frozen.py gate/settled.py gate/trusted.py gate/typed.py
    gate/pages.py
    gate/unused-lemmas.py
    gate/wrong-bodies.py --texts
    step "rt ci: proofs, tests, programs. It prints a crate when it has judged it. Beside it the snippets and wrong bodies, whose lines come after it"
    said=$(mktemp -d)
    gate/snippets.sh > "$said/snippets" 2>&1 &
    snippets=$!
    bodies=
    : > "$said/ci"
    if [ "${1:-}" = all ]; then
      # While it proves the largest crate, rt ci leaves processors free; at the lowest priority these take no others from it.
      nice -n 19 gate/wrong-bodies.py --both --beside="$said/ci" > "$said/bodies" 2>&1 &
      bodies=$!
    fi
    trap 'kill "$snippets" $bodies 2> /dev/null || true; rm -rf "$said"' EXIT
    passed=yes
    rt ci 2>&1 | tee "$said/ci" || passed=no
    step "programs with arguments, on a terminal, without UTF-8, where reading or writing fails; rsc_example beside the system's grep"
    if [ "$passed" = yes ]; then
      gate/stored-runs.py || passed=no
      gate/beside-grep.py || passed=no
    else
      echo "not run, since rt ci failed"
    fi
    step "snippets: misuse that must not compile, and tests that are run without a proof"
    wait "$snippets" || passed=no
    cat "$said/snippets"
    [ "$passed" = yes ]
    if [ "${1:-}" = all ]; then
      step "wrong bodies: each must be refused by the function that it changes, or, where no contract refuses it, a test must fail over it"
      echo ended >> "$said/ci"
      tail -n +1 -f --pid="$bodies" "$said/bodies"
      wait "$bodies"
    fi
    ;;
  quick)
    gate/pages.py
    gate/wrong-bodies.py --texts
    gate/stored-runs.py --unproved
    ;;
  *)
    echo "usage: ./test.sh [all | quick]" >&2
    exit 2
    ;;
esac
