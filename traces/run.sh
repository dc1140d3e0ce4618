#!/bin/sh
# Runs the trace program on a trace in text form and shows its text; --help tells more.
set -eu

help() {
    cat <<'END'
use: traces/run.sh [TRACE]

Runs the trace program on a trace in text form and shows its text. TRACE is a file
such as traces/printed.trace, which is the default; - reads standard input.

The first run proves the trace program, which takes some minutes. Later runs prove
only what has changed since.

Exit status 0: the text was shown; 1: the trace was refused, the program was not
proved or did not run, or its text could not be written; 2: wrong use, or a tool is
missing.
END
}

say() {
    printf 'traces/run.sh: %s\n' "$1" >&2
}

refuse() {
    say "$2"
    exit "$1"
}

[ $# -le 1 ] || refuse 2 'more than one trace is named; --help tells more'
name=${1-$(dirname "$0")/printed.trace}
case $name in
-h | --help)
    help
    exit
    ;;
-) ;;
-*) refuse 2 "there is no option $name; --help tells more" ;;
*)
    [ -e "$name" ] || refuse 1 "there is no file '$name'"
    [ ! -d "$name" ] || refuse 1 "'$name' is a directory; a trace is a file"
    [ -r "$name" ] || refuse 1 "cannot read '$name'"
    exec <"$name"
    ;;
esac

CDPATH='' cd "$(dirname "$0")/.."
work=$(mktemp -d)
trap 'rm -rf "$work"' EXIT
trap 'exit 129' HUP
trap 'exit 130' INT
trap 'exit 143' TERM

# The trace is judged before anything is proved. What is installed here is needed for that, and takes none of the trace.
. tools/setup.sh </dev/null >&2
. compare/toolchain.sh
tool=target/compare/tracetext
if [ ! -x "$tool" ] || [ -n "$(find tools peer -newer "$tool")" ]; then
    mkdir -p target/compare
    # Another run may be using the tool, so it is replaced whole.
    build "tracetext.$$" tools/tracetext.c tools/trace_text.c peer/second_blocks.c
    mv "$tool.$$" "$tool"
fi
emulated "$tool" pack >"$work/image" || refuse 1 "nothing was run on '$name'"

# One run at a time proves and uses the program. The lock is this file, as crates/trace/out may be removed.
command -v rt >/dev/null || missing 'rt, the command of Rattle'
command -v flock >/dev/null || missing 'flock (Debian: util-linux)'
exec 9<traces/run.sh
flock -n 9 || {
    say 'waits for another run to end'
    flock 9
}

# Passes on all that rt says, and shows each crate that it has just proved: its name stands in a line of its own, some lines above the verdict.
show_progress() {
    while IFS= read -r line; do
        printf '%s\n' "$line"
        case $line in
        'crate '*) crate=${line#crate } ;;
        'logic=proved '*) printf '%s: proved\n' "${crate%%:*}" >&2 ;;
        esac
    done
}

# rt proves and builds the program, and runs it; that run gets no image.
log=target/compare/trace.log
mkdir -p target/compare
[ -x crates/trace/out/trace ] || say 'the first run proves some crates, which takes some minutes'
{ (cd crates/trace && rt run) 2>&1 </dev/null || : >"$work/failed"; } | show_progress >"$log"
if [ -e "$work/failed" ]; then
    # How many modules rt loaded says nothing of why.
    grep -v -E '^(logic /|statements |library |axioms |only=)' "$log" | tail -n 15 >&2
    refuse 1 "the trace program was not proved; $log has all that rt said"
fi

# The program ends with 1 where it says what went wrong.
status=0
said=$(emulated crates/trace/out/trace 2>&1 <"$work/image" >"$work/text") || status=$?
[ "$status" -eq 0 ] || [ "$status" -eq 1 ] || refuse 1 "the trace program died: $said"
if [ "$status" -ne 0 ] || [ -n "$said" ]; then
    refuse 1 "${said:-the trace program failed}"
fi
exec 9<&-
cat "$work/text"
