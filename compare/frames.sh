#!/usr/bin/env bash
# Runs the check of the frame theorem on random runs, by the service and by the emulator, that the two leave the same, that two
# corrections carried one after the other are the two carried as one, that a start which is sought for an end is carried to it, or
# there is none, that a run without its corrections and then its end Pauli leave what the run leaves, that the service lists a
# run behind a Pauli and the carried run before its end Pauli as the same text, that the steps of a run are reported and listed as
# the model tells them, and that frame logs are written as carrying has them and judged by that.
#
#   frames.sh [ARGUMENTS of the program frames]
#
# Needs the Rattle toolchain (or its archives, see prepare.sh) and cargo with edition 2024.
set -eu
. "$(dirname "$0")/prepare.sh"

archives
workspace checks checks model naribhush
build --bin frames
"$work/target/release/frames" "$@"
