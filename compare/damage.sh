#!/usr/bin/env bash
# Runs the check that damaged input is refused as the table says, nothing lent is written, and what is not refused is answered right.
#
#   damage.sh [ARGUMENTS of the program damage]
#   damage.sh --valgrind [CASES]    fewer cases, each lent buffer a block of its own, under valgrind
#
# Needs the Rattle toolchain (or its archives, see prepare.sh) and cargo with edition 2024.
set -eu
. "$(dirname "$0")/prepare.sh"

archives
workspace checks checks model naribhush
build --bin damage
program=$work/target/release/damage
if [ "${1:-}" = --valgrind ]; then
    valgrind --quiet --error-exitcode=1 "$program" "${2:-20000}" heap
else
    "$program" "$@"
fi
