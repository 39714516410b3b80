//! Links the engine's static library, from the directory that REFAL0_LIB names.

use std::env;
use std::path::PathBuf;

fn main() {
    let here = PathBuf::from(env::var_os("CARGO_MANIFEST_DIR").expect("cargo sets the directory"));
    let usual = here.join("../../target/staticlib");
    let directory = env::var_os("REFAL0_LIB").map_or(usual, |named| here.join("..").join(named));
    println!("cargo:rerun-if-env-changed=REFAL0_LIB");
    println!("cargo:rerun-if-changed={}", directory.join("libengine.a").display());
    println!("cargo:rustc-link-search=native={}", directory.display());
    println!("cargo:rustc-link-lib=static=engine");
}
