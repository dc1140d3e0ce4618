#!/bin/sh
# Builds the benchmark of the archive against the baseline in several layouts, runs each and
# prints one table.
#
#     bench/run.sh [ARCHIVE|none [LAYOUTS]]
# ARCHIVE is the proved archive (default crates/bilgethrum/out/libbilgethrum.a); with 'none' a copy
# of the baseline stands in for it, so that the ratios show how far a measurement can be off.
# LAYOUTS (default 5) is how many programs are linked, whose code lies at different addresses:
# where a loop lies against lines of the cache can matter more than what is measured.
# Under an emulator the figures say nothing.  See compare/toolchain.sh for the variables.
set -eu
cd "$(dirname "$0")/.."
. compare/toolchain.sh

layouts=${2:-5}
[ "$layouts" -gt 0 ] || missing "a number of layouts above 0"
parts=target/compare/bench
rm -rf "$parts"
mkdir -p "$parts"
find_archive "${1:-crates/bilgethrum/out/libbilgethrum.a}"

# compile NAME WORDS...: makes the object of that name
compile() {
    object=$1
    shift
    # shellcheck disable=SC2086
    "$CC" $c_flags -c "$@" -o "$parts/$object.o"
}

for part in bench/benchmark bench/images bench/pairs bench/marks bench/turns tools/trace_text \
    peer/baseline peer/baseline_calls; do
    compile "$(basename "$part")" "$part.c"
done
program="$parts/benchmark.o $parts/images.o $parts/pairs.o $parts/marks.o $parts/turns.o
    $parts/trace_text.o"
baseline="$parts/baseline.o $parts/baseline_calls.o"

# Each layout moves all code by 1,040 bytes, which is neither a line of the cache nor a page,
# and every other one has the archive before the baseline.  Naming a symbol of it takes the
# archive in where it stands.
layout=0
while [ "$layout" -lt "$layouts" ]; do
    compile padding -DPADDING=$((16 + layout * 1040)) bench/padding.c
    if [ $((layout % 2)) -eq 0 ]; then
        both="$baseline $archive"
    else
        both="$archive $baseline"
    fi
    # shellcheck disable=SC2086
    "$CC" $optimize -Wl,-u,bilgethrum_run "$parts/padding.o" $both $program $link_flags \
        -o "$parts/layout$layout"
    layout=$((layout + 1))
done

rows=
layout=0
while [ "$layout" -lt "$layouts" ]; do
    emulated "$parts/layout$layout" >"$parts/layout$layout.rows"
    rows="$rows $parts/layout$layout.rows"
    layout=$((layout + 1))
done

cpu=$(sed -n 's/^model name[^:]*: //p' /proc/cpuinfo 2>/dev/null | head -n 1)
printf 'CPU: %s, %s\n' "${cpu:-unknown}" "$(uname -m)"
printf 'compiler of the baseline: %s, flags: %s\n' "$("$CC" --version | head -n 1)" "$optimize"
printf '%s layouts\n' "$layouts"
# shellcheck disable=SC2086
awk -f bench/table.awk $rows
