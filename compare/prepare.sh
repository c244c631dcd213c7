# Read by the other scripts of this folder: what they build, and where. Everything that is built stands
# under target/compare; nothing is fetched.

here=$(cd "$(dirname "${BASH_SOURCE[0]}")" && pwd)
root=$(dirname "$here")
built=$root/target/compare

# The proved crates as archives: made anew, which from nothing takes minutes, or those in the folder that
# NARIBHUSH_ARCHIVES names. `rt lib` makes an archive of a crate that crates.txt lists as a static library.
archives() {
    if [ -z "${NARIBHUSH_ARCHIVES:-}" ]; then
        NARIBHUSH_ARCHIVES=$built/archives
        mkdir -p "$NARIBHUSH_ARCHIVES"
        for name in pauli_exports kernel_exports run_exports; do
            echo "proving and building $name" >&2
            (cd "$root/crates/$name" && rt lib) > "$built/$name.log" 2>&1 || {
                cat "$built/$name.log" >&2
                exit 1
            }
            cp "$root/crates/$name/out/lib$name.a" "$NARIBHUSH_ARCHIVES/lib$name.a"
        done
    fi
    export NARIBHUSH_ARCHIVES=$(cd "$NARIBHUSH_ARCHIVES" && pwd)
}

# workspace NAME PACKAGES..: a copy of these packages under target/compare/NAME, to build in.
workspace() {
    work=$built/$1
    shift
    mkdir -p "$work/.cargo"
    for package in "$@"; do
        rm -rf "${work:?}/$package"
        cp -rp "$here/$package" "$work/$package"
    done
    {
        echo '[workspace]'
        echo 'resolver = "3"'
        echo "members = [$(printf '"%s", ' "$@")]"
    } > "$work/Cargo.toml"
}

# published SOURCES: the published files, unchanged, in the copy of the package ticit. What they depend on
# comes from Debian's librust-num-complex-dev and librust-thiserror-dev; REGISTRY names the folder of these
# sources where it is not Debian's own.
published() {
    for name in active bits contiguous errors pauli; do
        cp -p "$1/src/$name.rs" "$work/ticit/src/$name.rs"
    done
    cat > "$work/.cargo/config.toml" <<TOML
[source.crates-io]
replace-with = "debian"

[source.debian]
directory = "${REGISTRY:-/usr/share/cargo/registry}"
TOML
}

# Builds in the copy, with cargo's arguments if any.
build() {
    (cd "$work" && cargo build --quiet --release --offline --target-dir "$work/target" "$@")
}

# Ends the script unless SOURCES holds the published files.
need_sources() {
    if [ -z "${1:-}" ] || [ ! -f "$1/src/pauli.rs" ]; then
        echo "usage: $(basename "$0") SOURCES   (SOURCES holds src/*.rs as published)" >&2
        exit 2
    fi
}
