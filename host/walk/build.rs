//! Links the static archive of the proved walk, from the folder named by ISO3561_LIB or from the repository's own.

use std::{env, path::PathBuf};

fn main() {
    println!("cargo:rerun-if-env-changed=ISO3561_LIB");
    let own = concat!(env!("CARGO_MANIFEST_DIR"), "/../../target/staticlib");
    let folder = env::var_os("ISO3561_LIB").map_or(PathBuf::from(own), PathBuf::from);
    let archive = folder.join("libwalk_ffi.a");
    assert!(
        archive.is_file(),
        "{} is missing: run `make lib` first",
        archive.display()
    );
    println!("cargo:rerun-if-changed={}", archive.display());
    println!("cargo:rustc-link-search=native={}", folder.display());
    println!("cargo:rustc-link-lib=static=walk_ffi");
}
