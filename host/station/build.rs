//! Links the static archive of the proved library.

use std::env;
use std::path::PathBuf;

fn main() {
    println!("cargo:rerun-if-env-changed=ISO3561_LIB");
    let folder = archive_folder();
    let archive = folder.join("libstation.a");
    println!("cargo:rerun-if-changed={}", archive.display());
    assert!(
        archive.is_file(),
        "{} is missing: run `make lib` first",
        archive.display()
    );
    println!("cargo:rustc-link-search=native={}", folder.display());
    println!("cargo:rustc-link-lib=static=station");
}

/// The folder named by ISO3561_LIB, or the repository's own.
fn archive_folder() -> PathBuf {
    match env::var_os("ISO3561_LIB") {
        Some(folder) => PathBuf::from(folder),
        None => PathBuf::from(env::var_os("CARGO_MANIFEST_DIR").expect("set by cargo"))
            .join("../../target/staticlib"),
    }
}
