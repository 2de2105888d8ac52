//! Links the archive of the crate `probe`, which tools/native-lib makes, from
//! the folder in BRIDLESTEP_LIB or from target/native of the repository.

use std::env;
use std::path::PathBuf;

fn main() {
    println!("cargo:rerun-if-env-changed=BRIDLESTEP_LIB");
    let folder = env::var_os("BRIDLESTEP_LIB").map(PathBuf::from).unwrap_or_else(|| {
        let here = PathBuf::from(env::var_os("CARGO_MANIFEST_DIR").unwrap());
        here.join("../target/native")
    });
    let archive = folder.join("libprobe.a");
    assert!(archive.exists(), "{} is not there: tools/harness makes it first", archive.display());
    println!("cargo:rerun-if-changed={}", archive.display());
    println!("cargo:rustc-link-search=native={}", folder.display());
    println!("cargo:rustc-link-lib=static=probe");
}
