# What the scripts need of a machine: a compiler for x86-64, and an emulator for x86-64 programs where the processor is another. Sourced.

# The archive and the programs are x86-64 code.
if [ "$(uname -m)" = x86_64 ]; then
    compiler=gcc packages='gcc libc6-dev'
else
    compiler=x86_64-linux-gnu-gcc packages='gcc-x86-64-linux-gnu libc6-dev-amd64-cross'
    kit=${RATTLE_HOME:-$(dirname "$(dirname "$(readlink -f "$(command -v rt)")")")}
    export EMULATE="${EMULATE:-$kit/on/$(uname -m)/toolchain/bin/qemu-x86_64}"
fi
if ! command -v "$compiler" >/dev/null; then
    # shellcheck disable=SC2086
    { apt-get -q update && apt-get -qy install --no-install-recommends $packages; } || {
        printf '%s: cannot install %s; root can, on Debian and its like\n' "$0" "$packages" >&2
        exit 2
    }
fi
