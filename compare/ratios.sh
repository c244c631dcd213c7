#!/usr/bin/env bash
# Times calls on the largest runs and prints, beside the times, their ratios: what seeking a start and what folding costs in checks
# and in carries of the same run.
#
#   ratios.sh [ARGUMENTS of the program ratios]
#
# Needs the Rattle toolchain (or its archives, see prepare.sh) and cargo with edition 2024.
set -eu
. "$(dirname "$0")/prepare.sh"

archives
workspace checks checks model naribhush
build --bin ratios
"$work/target/release/ratios" "$@"
