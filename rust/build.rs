//! Links the archive of the crate `cab`, libcab.a, which tools/archive makes, from the folder in BRIDLESTEP_ARCHIVE or from target/native
//! of the repository.

use std::env;
use std::path::PathBuf;

fn main() {
    println!("cargo:rerun-if-env-changed=BRIDLESTEP_ARCHIVE");
    let folder = env::var_os("BRIDLESTEP_ARCHIVE").map(PathBuf::from).unwrap_or_else(|| {
        let here = PathBuf::from(env::var_os("CARGO_MANIFEST_DIR").unwrap());
        here.join("../target/native")
    });
    let archive = folder.join("libcab.a");
    assert!(archive.exists(), "{} is not there: `tools/archive cab` makes it", archive.display());
    println!("cargo:rerun-if-changed={}", archive.display());
    println!("cargo:rustc-link-search=native={}", folder.display());
    println!("cargo:rustc-link-lib=static=cab");
}
