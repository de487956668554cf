//! Hands the static library to the linker of `compare-lib`, if it is wanted.

use std::env;

fn main() {
    println!("cargo:rerun-if-env-changed=PLANBENCH_LIBRARY");
    if env::var_os("CARGO_FEATURE_LIBRARY").is_none() {
        return;
    }
    let path = env::var("PLANBENCH_LIBRARY")
        .expect("PLANBENCH_LIBRARY must name the static library, with its whole path");
    println!("cargo:rerun-if-changed={path}");
    println!("cargo:rustc-link-arg-bin=compare-lib={path}");
}
