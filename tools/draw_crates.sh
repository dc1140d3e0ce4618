#!/bin/sh
# Draws the crates into README.md from crates.txt, between the two marker lines below.
#
#     tools/draw_crates.sh            writes the drawing
#     tools/draw_crates.sh --check    writes nothing, and fails where README's drawing is not what crates.txt gives
#
# In crates.txt a comment "# family: WORDS" opens each family, and a crate comes after those that it builds on; a static library has the word
# staticlib before its colon. The drawing has the last family on top, so that every arrow points downwards. It leaves out an arrow where another
# way leads down to the same crate.
set -eu
cd "$(dirname "$0")/.."
begin='<!-- crates: drawn from crates.txt by tools/draw_crates.sh -->'
end='<!-- crates: end -->'
drawing=$(mktemp) readme=$(mktemp)
trap 'rm -f "$drawing" "$readme"' EXIT

# crates.txt is read twice: first for the names of all crates, since a library of the prover's is not drawn.
LC_ALL=C awk '
FNR == 1 { pass++ }

pass == 1 && /^[a-z0-9_]+( staticlib)?:/ { sub(/[ :].*/, ""); is_crate[$0] = 1; next }

pass == 1 { next }

/^# family: / { family = substr($0, 11) }

/^[a-z0-9_]+( staticlib)?:/ {
    crate = $0
    sub(/[ :].*/, "", crate)
    sub(/^[^:]*:/, "")
    if (family == "")
        fail(crate " stands under no family")
    order[++count] = crate
    family_of[crate] = family
    if (width < length(crate))
        width = length(crate)
    for (i = 1; i <= NF; i++) {
        if (!($i in is_crate))
            continue
        if (!($i in family_of))
            fail(crate " builds on " $i ", which comes after it")
        below[crate, $i] = 1
        # What lies further below is reached over this one.
        for (k = 1; k < count; k++)
            if (below[$i, order[k]] || further[$i, order[k]])
                further[crate, order[k]] = 1
    }
}

function fail(words) {
    print "crates.txt: " words >"/dev/stderr"
    failed = 1
    exit 1
}

END {
    if (failed)
        exit 1
    print "```text"
    for (k = count; 0 < k; k--) {
        crate = order[k]
        if (family_of[crate] != family_of[order[k + 1]])
            print (k < count ? "\n" : "") family_of[crate]
        line = sprintf("    %-" width "s", crate)
        arrow = "  -> "
        for (i = k - 1; 0 < i; i--)
            if (below[crate, order[i]] && !further[crate, order[i]]) {
                line = line arrow order[i]
                arrow = ", "
            }
        sub(/ +$/, "", line)
        print line
    }
    print "```"
}
' crates.txt crates.txt >"$drawing"

LC_ALL=C awk -v begin="$begin" -v end="$end" -v drawing="$drawing" '
$0 == end { inside = 0; ends++ }

!inside { print }

$0 == begin {
    while ((getline line < drawing) > 0)
        print line
    inside = 1
    begins++
}

END {
    if (begins != 1 || ends != 1 || inside) {
        print "README.md: there should be one line \047" begin "\047, and after it one line \047" end "\047" >"/dev/stderr"
        exit 1
    }
}
' README.md >"$readme"

if [ "${1:-}" != --check ]; then
    cat "$readme" >README.md
elif ! diff README.md "$readme" >&2; then
    echo "README.md: the drawing of the crates is not what crates.txt gives; tools/draw_crates.sh makes it" >&2
    exit 1
fi
