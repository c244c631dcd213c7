#!/usr/bin/env bash
# Makes the recorded test vectors again.
#
#   record.sh SOURCES
#
# SOURCES is the folder that holds src/*.rs as published. The files stdin and stdout of crates/pauli_vectors and crates/kernel_vectors have a
# line "# ---- recorded": what stands below it is written anew (what the Rust answers, its kernels by their scalar loops); above it the calls
# stay, and the kernels' answers are those of vectors/model.py. crates/run_vectors has what vectors/runs.py answers, crates/report_vectors
# and crates/frame_vectors what vectors/frames.py does, which writes crates/report's and runs/frame.run too. They come out the same each time.
#
# Needs x86-64, cargo with edition 2024, two of Debian's packages (prepare.sh) and Python.
set -eu
. "$(dirname "$0")/prepare.sh"

need_sources "$@"
sources=$(cd "$1" && pwd)
workspace rust against fearless_simd model naribhush ticit
published "$sources"
build --no-default-features --bin record_paulis --bin record_kernels

crates=$root/crates
made=$(mktemp -d)
trap 'rm -rf "$made"' EXIT
export PYTHONDONTWRITEBYTECODE=1 # nothing beside the models

# The part of a file above its line of what was recorded.
above() {
    sed '/^# ---- recorded/,$d' "$1"
}

# FOLDER: its recorded part from $made; the part above it from its own stdin and from what standard input has for stdout.
renew() {
    line='# ---- recorded: what the Rust answered'
    { cat; echo "$line"; cat "$made/stdout"; } > "$made/answers"
    { above "$1/stdin"; echo "$line"; cat "$made/stdin"; } > "$made/calls"
    cp "$made/calls" "$1/stdin"
    cp "$made/answers" "$1/stdout"
}

"$work/target/release/record_paulis" "$made"
above "$crates/pauli_vectors/stdout" | renew "$crates/pauli_vectors"
TICIT_SIMD=scalar "$work/target/release/record_kernels" "$made"
above "$crates/kernel_vectors/stdin" | python3 "$root/vectors/model.py" | renew "$crates/kernel_vectors"
python3 "$root/vectors/runs.py" write "$crates"
python3 "$root/vectors/frames.py" write "$crates" "$root/runs"
