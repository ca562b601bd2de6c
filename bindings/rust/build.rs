//! Links `libnibrocate.a`, from the directory that `NIBROCATE_LIB` names or else from where `scripts/library` puts it.

use std::env;
use std::path::{Path, PathBuf};

fn main() {
    let here = env::var_os("CARGO_MANIFEST_DIR").expect("cargo names the package's directory");
    let built = Path::new(&here).join("../../target/staticlib");
    let directory = env::var_os("NIBROCATE_LIB").map_or(built, PathBuf::from);
    let archive = directory.join("libnibrocate.a");
    println!("cargo:rerun-if-env-changed=NIBROCATE_LIB");
    println!("cargo:rerun-if-changed={}", archive.display());
    assert!(
        archive.is_file(),
        "there is no {}: run `scripts/library`, or let NIBROCATE_LIB name its directory",
        archive.display()
    );
    println!("cargo:rustc-link-search=native={}", directory.display());
    println!("cargo:rustc-link-lib=static=nibrocate");
}
