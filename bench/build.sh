#!/usr/bin/env bash
# Builds both sides of the benchmark.
#   bench/build.sh SOURCES OUT [LAYOUTS]
# SOURCES is a folder of the original's sources, as compare/build.sh has it. OUT gets the programs theirs_1, ours_1 and so on, LAYOUTS (4)
# of each side. They differ in nothing but the order in which the linker lays the functions out, which decides how fast a short loop is.
set -euo pipefail
here=$(cd "$(dirname "${BASH_SOURCE[0]}")" && pwd)
if [ $# -lt 2 ] || [ $# -gt 3 ]; then
    echo "usage: bench/build.sh SOURCES OUT [LAYOUTS]" >&2
    exit 2
fi
mkdir -p "$2"
out=$(cd "$2" && pwd)

# `rt lib` proves the kernels and what they rest on, and makes the static library; the toolchain's C library is in the folder
# `c` beside the page that `rt doc` names.
kernels=$here/../crates/rsc_kernels
(cd "$kernels" && rt lib) > "$out/rt-lib.log" 2>&1 || {
    tail -n 20 "$out/rt-lib.log" >&2
    exit 1
}
library=(-L native="$kernels/out" -l static=rsc_kernels -L native="$(dirname "$(rt doc)")/c" -l static=libc_c)

# One unit, for the processor that the port is built for.
for layout in $(seq "${3:-4}"); do
    flags=(-C codegen-units=1 -C target-cpu=x86-64-v2 --check-cfg 'cfg(ported)' -C link-arg="-Wl,--shuffle-sections=.text*=$layout")
    "$here/../compare/build.sh" "$1" "$out" "$here/src/main.rs" "theirs_$layout" "${flags[@]}" > /dev/null
    rustc --edition 2021 -C opt-level=3 "${flags[@]}" --cfg ported --crate-name ours "${library[@]}" -o "$out/ours_$layout" "$here/src/main.rs"
done
