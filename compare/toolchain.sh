# Read by the run scripts: finds the compiler and the archive, and says what is missing.
#
# The archive holds x86-64 code, so everything is built for that.  On another processor
# the cross compiler is taken and programs run under the emulator that EMULATE names.
#   CC        compiler (default gcc, or x86_64-linux-gnu-gcc on another processor)
#   EMULATE   command that runs an x86-64 program (needed on another processor only)
#   SANITIZE  set to 1 for a debug build under the address and undefined sanitizers

missing() {
    printf '%s: missing: %s\n' "$0" "$1" >&2
    exit 2
}

if [ "$(uname -m)" = x86_64 ]; then
    CC=${CC:-gcc}
    link_flags=
else
    CC=${CC:-x86_64-linux-gnu-gcc}
    link_flags=-static
    EMULATE=${EMULATE:-qemu-x86_64}
fi
EMULATE=${EMULATE:-}
command -v "$CC" >/dev/null || missing "the compiler $CC (Debian: gcc or gcc-x86-64-linux-gnu)"
if [ -n "$EMULATE" ]; then
    command -v "${EMULATE%% *}" >/dev/null ||
        missing "an emulator for x86-64 programs; name its command in EMULATE"
fi

optimize='-O3'
[ "${SANITIZE:-}" != 1 ] ||
    optimize='-O1 -g -fsanitize=address,undefined -fno-sanitize-recover=all'
c_flags="-std=c11 -Wall -Wextra -Werror $optimize -Iinclude -Ipeer -Itools -Icompare"

# build PROGRAM WORDS...: compiles and links target/compare/PROGRAM
build() {
    program=$1
    shift
    # The flags are lists of words.
    # shellcheck disable=SC2086
    "$CC" $c_flags "$@" $link_flags -o "target/compare/$program"
}

# emulated PROGRAM WORDS...: runs it, under the emulator where there is one
emulated() {
    # shellcheck disable=SC2086
    $EMULATE "$@"
}

# Sets archive to the file that has the header's calls: the one named, or the stand-in for 'none',
# whose copy of the baseline's run has a name of its own, so that both can be linked.
find_archive() {
    archive=$1
    if [ "$archive" = none ]; then
        archive=target/compare/libstandin.a
        rm -f "$archive"
        for part in standin baseline; do
            # shellcheck disable=SC2086
            "$CC" $c_flags -Dbaseline_run=standin_run -c "peer/$part.c" \
                -o "target/compare/$part.o"
            "$("$CC" -print-prog-name=ar)" rc "$archive" "target/compare/$part.o"
        done
    fi
    [ -f "$archive" ] || missing "the archive $archive (rt lib in crates/bilgethrum), or say 'none'"
}
