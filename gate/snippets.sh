#!/usr/bin/env bash
# gate/snippets.sh tries what `rt ci` can't check, by snippets of code that are added to a file in a copy of the repository.
#
# crates/NAME/must-not-compile/*.snippet is misuse that the borrow checker must refuse: at the end of the crate's root file the
# check must fail with the text of each of the snippet's lines `// refused: TEXT`.
#
# crates/NAME/must-run/*.snippet is tests of calls whose callers the checker doesn't cover, or of what no stored run of a program
# shows: at the end of the file that the first line names, `// added to: FILE`, they are compiled and run without a proof, and each must pass.
# The snippets of a crate are run together, and its other tests are left out, since `rt ci` runs them.
#
# This script also makes a repository by own/new-repository.sh and runs its tests.
set -u
cd "$(dirname "$0")/.."
gate=$PWD/gate
copy=$(mktemp -d)
trap 'rm -rf "$copy"' EXIT
passed=0
failed=0

# Makes a copy of the repository.
copied() {
  rm -rf "$copy/repository"
  mkdir -p "$copy/repository"
  tar --exclude=out --exclude=wrong-bodies -cf - crates crates.txt HANDLES | tar -xf - -C "$copy/repository"
}

# Adds a snippet at the end of a file of its crate in the copy.
add() {
  local snippet=$1 file=$2
  if ! [ -f "${snippet%%/must-*}/$file" ]; then
    echo "$snippet: no file $file in its crate" >&2
    exit 1
  fi
  cat "$snippet" >> "$copy/repository/${snippet%%/must-*}/$file"
}

# Says how a snippet ended, by the status of the command before it, and counts it. What was answered is shown where it failed.
count() {
  local status=$? snippet=$1 wanted=$2 answer=$3
  if [ "$status" -eq 0 ]; then
    echo "$snippet: $wanted, as it must be"
    passed=$((passed + 1))
  else
    echo "$snippet: NOT $wanted"
    printf '%s\n' "$answer" | tail -n 5
    failed=$((failed + 1))
  fi
}

# Whether the text of each line `// refused:` of a snippet is among the errors of an answer.
is_refused() {
  local text
  grep -q '^// refused: ' "$1" || return 1
  while read -r text; do
    printf '%s' "$2" | grep -F 'error[' | grep -qF "$text" || return 1
  done < <(sed -n 's/^\/\/ refused: //p' "$1")
}

# Whether each test of a snippet, of which there is one, passed.
is_passed() {
  local tests test
  tests=$(sed -n '/^#\[test\]$/{n;s/^fn \([a-z0-9_]*\)(.*/\1/p}' "$1")
  for test in $tests; do
    printf '%s\n' "$2" | grep -q "^test .*::$test \.\.\. ok$" || return 1
  done
  [ -n "$tests" ]
}

for snippet in crates/*/must-not-compile/*.snippet; do
  copied
  add "$snippet" src/lib.rt
  answer=$(cd "$copy/repository/${snippet%%/must-*}" && rt check 2>&1)
  is_refused "$snippet" "$answer"
  count "$snippet" refused "$answer"
done
for folder in crates/*/must-run; do
  copied
  find "$copy/repository/${folder%/*}/src" -name '*.rt' -exec perl -0pi -e 's/^#\[test\]\nfn .*?^\}\n//msg' {} +
  for snippet in "$folder"/*.snippet; do
    add "$snippet" "$(sed -n '1s/^\/\/ added to: //p' "$snippet")"
  done
  answer=$(cd "$copy/repository/${folder%/*}" && python3 "$gate/edits.py" 2>&1)
  for snippet in "$folder"/*.snippet; do
    is_passed "$snippet" "$answer"
    count "$snippet" passed "$answer"
  done
done
# The repository of one's own that own/new-repository.sh makes: the tests of its first functions.
answer=$(own/new-repository.sh "$copy/own" first engine uses && cd "$copy/own/crates/first" && python3 "$gate/edits.py" 2>&1)
printf '%s\n' "$answer" | grep -q '^test result: ok. 2 passed'
count own/new-repository.sh passed "$answer"
echo "snippets: $passed passed, $failed failed"
[ "$failed" -eq 0 ] && [ "$passed" -gt 0 ]
