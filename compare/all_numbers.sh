#!/bin/sh
# Builds and runs the program that uses all numbers of a line, which takes some minutes.
#
#     compare/all_numbers.sh [ARCHIVE|none]
# ARCHIVE is the proved archive (default crates/bilgethrum/out/libbilgethrum.a); with 'none'
# the baseline stands in for it.  Under an emulator it takes hours.  See
# compare/toolchain.sh for the variables it heeds.
set -eu
cd "$(dirname "$0")/.."
. compare/toolchain.sh

mkdir -p target/compare
find_archive "${1:-crates/bilgethrum/out/libbilgethrum.a}"
build all_numbers compare/all_numbers.c "$archive"
emulated target/compare/all_numbers
