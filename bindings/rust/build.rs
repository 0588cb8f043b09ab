//! Links the archive that `tools/archive` writes; PLANNER_LIB names another folder.
use std::path::PathBuf;

fn main() {
    let here = PathBuf::from(std::env::var("CARGO_MANIFEST_DIR").unwrap());
    let folder = std::env::var("PLANNER_LIB").map_or_else(|_| here.join("../../target/staticlib"), PathBuf::from);
    println!("cargo:rerun-if-env-changed=PLANNER_LIB");
    println!("cargo:rerun-if-changed={}", folder.join("libplanner.a").display());
    println!("cargo:rustc-link-search=native={}", folder.display());
    println!("cargo:rustc-link-lib=static=planner");
}
