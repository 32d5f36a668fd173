//! Links the proved library, libxcoff_c.a: from the folder that XCOFF_LIBRARY_DIR names, or else from crates/xcoff_c/out/ of
//! the repository, where `rt lib` in crates/xcoff_c writes it.

use std::path::{Path, PathBuf};

fn main() {
    let here = std::env::var("CARGO_MANIFEST_DIR").expect("cargo sets CARGO_MANIFEST_DIR");
    println!("cargo:rerun-if-env-changed=XCOFF_LIBRARY_DIR");
    let folder = match std::env::var_os("XCOFF_LIBRARY_DIR") {
        Some(folder) => PathBuf::from(folder),
        None => Path::new(&here).join("../crates/xcoff_c/out"),
    };
    let archive = folder.join("libxcoff_c.a");
    if !archive.is_file() {
        panic!(
            "{} is not there: run `rt lib` in crates/xcoff_c first, or name its folder by XCOFF_LIBRARY_DIR",
            archive.display()
        );
    }
    println!("cargo:rustc-link-search=native={}", folder.display());
    println!("cargo:rustc-link-lib=static=xcoff_c");
    println!("cargo:rerun-if-changed={}", archive.display());
}
