//! Links libfikrem.a from the folder FIKREM_LIB, or from the repository's target/staticlib.

use std::env;
use std::path::PathBuf;

fn main() {
    println!("cargo:rerun-if-env-changed=FIKREM_LIB");
    println!("cargo:rerun-if-changed=build.rs");
    let folder = match env::var_os("FIKREM_LIB") {
        Some(folder) => PathBuf::from(folder),
        None => PathBuf::from(env::var_os("CARGO_MANIFEST_DIR").expect("cargo sets it")).join("../../target/staticlib"),
    };
    // cargo runs this in the package's folder and the linker in another, so that a relative folder would be two
    assert!(folder.is_absolute(), "FIKREM_LIB is {}: name the folder from the root on", folder.display());
    println!("cargo:rustc-link-search=native={}", folder.display());
    let library = folder.join("libfikrem.a");
    println!("cargo:rerun-if-changed={}", library.display());
    assert!(library.exists(), "there is no {}: build it by 'python3 tools/archives.py'", library.display());
    println!("cargo:rustc-link-lib=static:-bundle=fikrem");
}
