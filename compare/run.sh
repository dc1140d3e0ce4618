#!/bin/sh
# Builds the comparison, tries the tools on the bundled traces, and compares.
#
#     compare/run.sh [ARCHIVE|none [IMAGES [SEED]]]
# ARCHIVE is the proved archive (default crates/bilgethrum/out/libbilgethrum.a); with 'none' the
# second program and the baseline are compared alone.  See compare/toolchain.sh for
# the variables it heeds.
set -eu
cd "$(dirname "$0")/.."
. compare/toolchain.sh

named=${1:-crates/bilgethrum/out/libbilgethrum.a}
[ $# -eq 0 ] || shift
mkdir -p target/compare
find_archive "$named"
second='peer/second.c peer/second_line.c peer/second_blocks.c peer/second_columns.c
    peer/second_marker.c'
compare=
for part in compare/*.c; do
    case $part in
    compare/all_numbers.c | compare/stack.c) ;;
    *) compare="$compare $part" ;;
    esac
done
# The stand-in's whole run is the baseline's, which is compared anyway.
with_archive=
[ "$named" = none ] || with_archive=-DWITH_ARCHIVE
# The lists of files are lists of words.
# shellcheck disable=SC2086
{
    build tracetext tools/tracetext.c tools/trace_text.c peer/second_blocks.c
    build testbench bench/testbench.c "$archive"
    build host bench/host.c "$archive"
    build door bench/door.c "$archive"
    build all_numbers compare/all_numbers.c "$archive"
    build stack compare/stack.c "$archive"
    build compare $with_archive $compare tools/trace_text.c $second peer/baseline.c "$archive"
}

failed() {
    printf 'compare/run.sh: %s\n' "$1" >&2
    exit 1
}

tool() {
    emulated target/compare/tracetext "$@"
}

bench() {
    emulated target/compare/testbench "$@"
}

# Each bundled trace: packs, comes back as it was, and has the text beside it.
traces=0
for trace in traces/*.trace; do
    name=$(basename "$trace" .trace)
    image=target/compare/$name.image
    tool pack <"$trace" >"$image"
    tool unpack <"$image" >"$image.trace"
    tool pack <"$image.trace" | cmp -s - "$image" || failed "$name does not come back"
    bench --expect "traces/$name.text" "$image" || failed "$name has another text"
    bench <"$image" | cmp -s - "traces/$name.text" || failed "$name prints another text"
    traces=$((traces + 1))
done

# Both tools must also say no: refuses WORDS WHAT STATUS, for what was last said.
said=target/compare/said
refuses() {
    [ "$3" -eq 1 ] || failed "$2 is not refused"
    grep -q "$1" "$said" || failed "$2 is refused, but without the words '$1'"
}
status=0
bench --expect traces/printed.text target/compare/full-rooms.image >"$said" || status=$?
refuses 'line 1 differs' 'a text of another trace' $status
status=0
printf 'alpha 100 ticks 1\nu50@0\nu0@0\n' | tool pack 2>"$said" || status=$?
refuses '^tracetext: line 3: length' 'a trace text with a length of 0' $status
status=0
head -c 511 target/compare/printed.image | tool unpack 2>"$said" || status=$?
refuses 'refused with 11: the image must be' 'a cut image' $status
# Each refused image of crates/case_run has the words of its field.
while read -r name words; do
    status=0
    tool unpack <"crates/case_run/data/$name" 2>"$said" || status=$?
    refuses "refused with $words" "the image $name" $status
done <<'END'
check 12 in block 0: the check
edition 13 in block 0: edition
count 14 in block 0: record count
number 15 in block 1: block number
settings 16 in block 1: alpha
header_spare 16 in block 0: alpha
kind 17 in block 0, record 0, at byte 16: kind
spare_byte 41 in block 0, record 3, at byte 64: byte 1
length 42 in block 0, record 0, at byte 16: length
place 43 in block 1, record 7, at byte 640: place
instant 44 in block 1, record 30, at byte 1008: instant
unused 19 in block 0: unused bytes
END
printf '%s bundled traces packed, unpacked and judged\n' "$traces"

# The images of crates/case_run, refused ones among them, have the texts that it must print.
images=target/compare/case_run.text
while read -r name; do
    printf '%s\n' "$name"
    bench "crates/case_run/data/$name"
done <crates/case_run/args >"$images"
cmp -s "$images" crates/case_run/stdout || failed 'an image of crates/case_run has another text'

# The example host prints the printed case, and shows refusal 5 where its duty is not done.
host() {
    emulated target/compare/host "$@"
}
host | cmp -s - traces/printed.text || failed 'the host prints another text'
host duty >"$said"
sed '/^too late:$/,$d' "$said" | grep -q '^R' && failed 'a host in time meets a refusal'
sed '1,/^too late:$/d' "$said" | grep -qx 'R 5' || failed 'a late host does not meet refusal 5'

# The example door prints its text.  What it hands on is a trace, which the whole run answers in
# the same words.
door() {
    emulated target/compare/door
}
door | cmp -s - bench/door.text || failed 'the door prints another text'
{
    echo 'alpha 100 ticks 1'
    sed 's/:.*//; s/.* //' bench/door.text
} | tool pack >target/compare/door.image
sed 's/.*: //' bench/door.text >target/compare/door.answers
bench target/compare/door.image | sed '/^T/d' | cmp -s - target/compare/door.answers ||
    failed 'the door is answered otherwise than the whole run'

# What cannot be written must be told, with a status other than 0: unwritten STATUS WHAT.
unwritten() {
    [ "$1" -ne 0 ] || failed "$2 ends well though its output is lost"
    grep -q 'could not be written' "$said" || failed "$2 loses its output without a word"
}
if [ -w /dev/full ]; then
    status=0
    host >/dev/full 2>"$said" || status=$?
    unwritten $status 'the host with a full disk'
    status=0
    door >/dev/full 2>"$said" || status=$?
    unwritten $status 'the door with a full disk'
    status=0
    bench target/compare/printed.image >/dev/full 2>"$said" || status=$?
    unwritten $status 'the test bench with a full disk'
fi
status=0
host >&- 2>"$said" || status=$?
unwritten $status 'the host with its output closed'
status=0
door >&- 2>"$said" || status=$?
unwritten $status 'the door with its output closed'
status=0
bench target/compare/printed.image >&- 2>"$said" || status=$?
unwritten $status 'the test bench with its output closed'
status=0
bench --expect traces/printed.text target/compare/printed.image >&- 2>"$said" || status=$?
unwritten $status 'the judging test bench with its output closed'
printf 'the host, the door and the test bench tell what they cannot write\n'

# What the header says of the stack is said of the archive, and of no sanitizer.
if [ "$named" != none ] && [ "${SANITIZE:-}" != 1 ]; then
    emulated target/compare/stack || failed 'a call takes more stack than the header says'
fi

# A difference is saved beside the programs.
cd target/compare
emulated ./compare "$@"
