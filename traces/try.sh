#!/bin/sh
# Tries traces/run.sh on good and wrong traces, in wrong use, twice at once, and where rt or the program fails. Its last line says how many
# cases it tried.
set -eu
cd "$(dirname "$0")/.."
. tools/setup.sh
export LC_ALL=C
work=$(mktemp -d)
trap 'rm -rf "$work"' EXIT
mkdir "$work/bin" "$work/tmp"
tried=0

failed() {
    printf 'traces/try.sh: %s\n' "$1" >&2
    [ ! -s "$work/said" ] || sed 's/^/    it said: /' "$work/said" >&2
    exit 1
}

# judge WHAT STATUS TEXT WORDS: so the run must have ended, having printed what the file TEXT has and said WORDS; nothing where they are empty.
judge() {
    [ "$status" -eq "$2" ] || failed "$1: status $status and not $2"
    cmp -s "$work/printed" "$3" || failed "$1: printed something else than $3 has"
    if [ -n "$4" ]; then
        grep -q -e "$4" "$work/said" || failed "$1: did not say '$4'"
    else
        [ ! -s "$work/said" ] || failed "$1: said something"
    fi
    tried=$((tried + 1))
}

# try WHAT STATUS TEXT WORDS COMMAND...: runs the command and judges it.
try() {
    what=$1 wanted=$2 text=$3 words=$4
    shift 4
    status=0
    TMPDIR=$work/tmp "$@" >"$work/printed" 2>"$work/said" || status=$?
    judge "$what" "$wanted" "$text" "$words"
    [ -z "$(ls -A "$work/tmp")" ] || failed "$what: left a file behind"
}

# await WORDS FILE: until the file has the words, for half a minute at most.
await() {
    turns=0
    until grep -q -e "$1" "$2"; do
        turns=$((turns + 1))
        [ "$turns" -lt 300 ] || failed "did not say '$1' in time"
        sleep 0.1
    done
}

# Proves what is not current, so that the runs below find everything proved.
traces/run.sh >"$work/printed"

try 'the default' 0 traces/printed.text '' traces/run.sh
try 'standard input' 0 traces/ties.text '' traces/run.sh - <traces/ties.trace
mkdir "$work/a b"
cp traces/camera-burst.trace "$work/a b/c d.trace"
# shellcheck disable=SC2016
try 'a path with blanks, from elsewhere' 0 traces/camera-burst.text '' \
    sh -c 'cd "$1" && "$2/run.sh" "a b/c d.trace"' sh "$work" "$(pwd)/traces"
try 'a full disk' 1 /dev/null 'No space left' sh -c 'traces/run.sh >/dev/full'

traces/run.sh --help >"$work/help"
grep -q '^use: traces/run.sh' "$work/help" || failed '--help does not help'
try '--help' 0 "$work/help" '' traces/run.sh --help
try '-h' 0 "$work/help" '' traces/run.sh -h

# Below, rt is a stand-in that does what the file 'rt' says; none of the wrong traces may come that far.
cat >"$work/bin/rt" <<'END'
#!/bin/sh
. "${0%/*}/../rt"
END
chmod +x "$work/bin/rt"
PATH=$work/bin:$PATH
echo ": >'$work/rt-called'" >"$work/rt"

# refused WHAT STATUS WORDS WORD...: traces/run.sh with these words prints nothing and does not call rt.
refused() {
    what=$1 wanted=$2 words=$3
    shift 3
    try "$what" "$wanted" /dev/null "$words" traces/run.sh "$@"
    [ ! -e "$work/rt-called" ] || failed "$what: called rt"
}

cd "$work"
printf 'alpha 100 ticks 1\nu50@0\nu0@0\n' >wrong.trace
: >empty.trace
awk 'BEGIN { print "alpha 100 ticks 1"; for (i = 0; i < 1985; i++) print "a" i }' >events.trace
awk 'BEGIN { print "alpha 100 ticks 1"; for (i = 0; i < 40000; i++) print "# a comment of some thirty bytes" }' >long.trace
cd "$OLDPWD"
refused 'a wrong trace' 1 'line 3: length must be' "$work/wrong.trace"
refused 'a wrong trace from standard input' 1 'line 3: length must be' - <"$work/wrong.trace"
refused 'an empty trace' 1 'line 1: the text is empty' "$work/empty.trace"
refused 'an empty standard input' 1 'line 1: the text is empty' - </dev/null
refused '1985 events' 1 'line 1986: more than 1984 events' "$work/events.trace"
refused 'a trace longer than a mebibyte' 1 'longer than 1048576 bytes' "$work/long.trace"
refused 'a missing trace' 1 "there is no file '$work/missing'" "$work/missing"
refused 'an empty name' 1 "there is no file ''" ''
refused 'a directory' 1 'is a directory' traces
refused 'a file that cannot be read' 1 'cannot read' /proc/self/mem
refused 'an unknown option' 2 'no option --quick' --quick
refused 'two traces' 2 'more than one' traces/printed.trace traces/ties.trace

# A first run, in a copy that has nothing proved: the line of each crate is shown before rt goes on.
program=$(pwd)/crates/trace/out/trace
mkdir "$work/a copy"
mkdir -p "$work/a copy/crates/trace"
cp -R traces tools compare peer include "$work/a copy"
cd "$work/a copy"
cat >"$work/rt" <<END
echo 'fn room::put: proved'
echo 'crate room: modules loaded=24 checked=9'
echo 'logic=proved functions=1 sum=5 statements=trusted incremental=trusted'
turns=0
until [ -e '$work/go-on' ] || [ \$turns -eq 300 ]; do sleep 0.1; turns=\$((turns + 1)); done
mkdir -p out
[ ! -e '$work/go-on' ] || cp '$program' out
echo 'rt: running out/trace; to give it other input, run that file yourself'
END
status=0
traces/run.sh >"$work/printed" 2>"$work/said" &
await 'room: proved' "$work/said"
: >"$work/go-on"
wait $! || status=$?
judge 'a first run' 0 traces/printed.text 'first run proves some crates'
[ "$(wc -l <"$work/said")" -eq 2 ] || failed 'a first run: said more than it should'

echo 'echo "rt: nothing has changed since the last proved build, by out/trace.stamp, so nothing is checked now"' >"$work/rt"
try 'a second run' 0 traces/printed.text '' traces/run.sh

# Twice at once: while the lock is held both wait, and a wrong trace is still refused; then rt finds no other rt at work.
cat >"$work/rt" <<END
mkdir '$work/at-work' || exit 1
sleep 0.5
rmdir '$work/at-work'
END
exec 9<traces/run.sh
flock 9
for name in ties refusals; do
    traces/run.sh "traces/$name.trace" >"$work/$name" 2>"$work/$name.said" 9<&- &
    echo $! >"$work/$name.pid"
done
refused 'a wrong trace while another is run' 1 'line 3: length must be' "$work/wrong.trace" 9<&-
for name in ties refusals; do
    await 'waits for another run' "$work/$name.said"
done
exec 9<&-
for name in ties refusals; do
    status=0
    wait "$(cat "$work/$name.pid")" || status=$?
    mv "$work/$name" "$work/printed"
    mv "$work/$name.said" "$work/said"
    judge "$name, one of two at once" 0 "traces/$name.text" 'waits for another run'
done

# Where rt or the program fails there is no text.
cat >"$work/rt" <<'END'
echo 'room.rt:5: error: the goal'
echo 'fn room::put: not proved'
for name in 1 2 3 4 5 6 7 8 9 10 11 12 13 14 15 16; do echo "statements $name: modules loaded=0 checked=0"; done
echo 'crate room: modules loaded=24 checked=9'
echo 'logic=not-proved'
echo 'rt: the library room did not build, so nothing above it was checked'
exit 1
END
try 'a crate that is not proved' 1 /dev/null 'error: the goal' traces/run.sh
: >"$work/rt"
printf '#!/bin/sh\necho T\nexit 3\n' >crates/trace/out/trace
try 'a program that dies' 1 /dev/null 'trace program died' traces/run.sh
printf '#!/bin/sh\necho T\necho trace: cannot write >&2\nexit 1\n' >crates/trace/out/trace
try 'a program that fails' 1 /dev/null 'run.sh: trace: cannot write' traces/run.sh
printf '#!/bin/sh\necho T\necho trace: cannot write >&2\n' >crates/trace/out/trace
try 'a program that fails with status 0' 1 /dev/null 'run.sh: .*trace' traces/run.sh
printf '#!/bin/sh\necho T\nexit 1\n' >crates/trace/out/trace
try 'a program that fails without a word' 1 /dev/null 'trace program failed' traces/run.sh

printf '%s cases of traces/run.sh tried\n' "$tried"
