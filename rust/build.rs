//! Links the archive that `rt lib` writes in crates/exports. COGARRUNE_ARCHIVE names its folder where it is not ../crates/exports/out.

use std::env;
use std::path::PathBuf;

fn main() {
    let beside = PathBuf::from(env::var("CARGO_MANIFEST_DIR").unwrap()).join("../crates/exports/out");
    let folder = env::var("COGARRUNE_ARCHIVE").map(PathBuf::from).unwrap_or(beside);
    println!("cargo:rerun-if-env-changed=COGARRUNE_ARCHIVE");
    println!("cargo:rerun-if-changed={}", folder.join("libexports.a").display());
    println!("cargo:rustc-link-search=native={}", folder.display());
    println!("cargo:rustc-link-lib=static=exports");
}
