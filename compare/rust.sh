#!/usr/bin/env bash
# Holds the proved calls against the published Rust.
#
#   rust.sh SOURCES [TIMES [SEED]]
#
# SOURCES is the folder that holds src/*.rs as published, TIMES a factor for the number of random cases, 1 if
# not given. Prints a table; the status is 0 where every case is equal or falls under a difference that
# docs/DIFFERENCES.md lists, and every row of that file was seen.
#
# Needs x86-64, the Rattle toolchain (or its archives, see prepare.sh), cargo with edition 2024 and two of
# Debian's packages (prepare.sh). The kernels of the Rust run by their scalar loops.
set -eu
. "$(dirname "$0")/prepare.sh"

need_sources "$@"
sources=$(cd "$1" && pwd)
shift
archives
workspace rust against fearless_simd model naribhush ticit
published "$sources"
build --bin against
TICIT_SIMD=scalar "$work/target/release/against" "$root/docs/DIFFERENCES.md" "$@"
