//! Links the three archives that the toolchain makes of the proved crates. NARIBHUSH_ARCHIVES is their folder.

fn main() {
    println!("cargo:rerun-if-env-changed=NARIBHUSH_ARCHIVES");
    let folder = std::env::var("NARIBHUSH_ARCHIVES").expect("NARIBHUSH_ARCHIVES");
    println!("cargo:rustc-link-search=native={folder}");
    for name in ["pauli_exports", "kernel_exports", "run_exports"] {
        println!("cargo:rerun-if-changed={folder}/lib{name}.a");
        println!("cargo:rustc-link-lib=static={name}");
    }
}
