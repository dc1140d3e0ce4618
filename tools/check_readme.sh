#!/bin/sh
# Checks that what README.md shows of the tree is in the tree: its code blocks and its links.
#
# A fenced block stands right below a line that says where it is from:
#     <!-- file: PATH -->       the block is the whole file, byte for byte
#     <!-- part of: PATH -->    the block stands in the file, as lines that follow each other
# Only a block that opens with ```text needs no such line. A link that names no host leads to a file that is there.
# Exit status 0: all is as it should be; 1: not so, and the difference is shown.
set -eu
cd "$(dirname "$0")/.."
work=$(mktemp -d)
trap 'rm -rf "$work"' EXIT
wrong=0

complain() {
    printf 'README.md:%s\n' "$1" >&2
    wrong=$((wrong + 1))
}

# Puts each block into a file of its own, and tells of each: its kind, the line of README, the number of its file, its path.
LC_ALL=C awk -v work="$work" '
function tell(kind, words) { print kind, FNR, blocks + 0, words }

fenced && /^```/ { fenced = 0; close(out); next }

fenced { print >out; next }

/^```/ {
    fenced = 1
    out = work "/block." ++blocks
    printf "" >out
    if (kind != "")
        tell(kind, path)
    else if ($0 != "```text")
        tell("nameless")
    kind = ""
    next
}

/^$/ { next }

kind != "" { tell("blockless", path); kind = "" }

/^<!-- (file|part of): .* -->$/ {
    kind = /^<!-- file/ ? "file" : "part"
    path = $0
    sub(/^<!-- [a-z ]*: /, "", path)
    sub(/ -->$/, "", path)
    next
}

{
    for (line = $0; match(line, /\]\([^)]*\)/); line = substr(line, RSTART + RLENGTH)) {
        link = substr(line, RSTART + 2, RLENGTH - 3)
        sub(/#.*/, "", link)
        if (link != "" && link !~ /^[a-z]+:/)
            tell("link", link)
    }
}

END {
    if (fenced)
        tell("open")
    else if (kind != "")
        tell("blockless", path)
}
' README.md >"$work/found"

# nearest BLOCK FILE: of the places in the file, the one that the block agrees with for the most lines from its first; as many lines as it has.
nearest() {
    LC_ALL=C awk '
    NR == FNR { wanted[++count] = $0; next }
    { line[FNR] = $0 }
    END {
        for (from = 0; from < FNR; from++) {
            for (i = 1; i <= count && from + i <= FNR && line[from + i] == wanted[i]; i++)
                ;
            if (most < i) {
                most = i
                best = from
            }
        }
        for (i = 1; i <= count && best + i <= FNR; i++)
            print line[best + i]
    }' "$1" "$2"
}

# compare KIND BLOCK PATH: the block with the file, or with the part of it that is nearest.
compare() {
    if [ "$1" = file ]; then
        diff "$2" "$3"
    else
        nearest "$2" "$3" | diff "$2" -
    fi
}

shown=0 links=0
while read -r kind at block path; do
    case $kind in
    nameless) complain "$at: the block names no file; a line <!-- file: PATH --> or <!-- part of: PATH --> stands above it" ;;
    blockless) complain "$at: there is no block below the line that names $path" ;;
    open) complain "$at: the last block has no end" ;;
    link)
        links=$((links + 1))
        [ -e "$path" ] || complain "$at: there is no file $path" ;;
    file | part)
        shown=$((shown + 1))
        if [ ! -f "$path" ]; then
            complain "$at: there is no file $path"
        elif [ ! -s "$work/block.$block" ]; then
            complain "$at: the block is empty"
        elif ! compare "$kind" "$work/block.$block" "$path" >"$work/difference"; then
            complain "$at: the block is not in $path; < is README, > the file"
            cat "$work/difference" >&2
        fi ;;
    esac
done <"$work/found"

[ "$wrong" -eq 0 ] || {
    printf 'README.md: %s blocks or links are wrong\n' "$wrong" >&2
    exit 1
}
printf 'README: %s blocks and %s links: all as in the tree\n' "$shown" "$links"
