//! Links `libgraphql_validation.a`: from the folder that GRAPHQL_VALIDATION_FOLDER names; else from `out/library` of the
//! checkout; else `scripts/build-library` proves and builds it, which needs the toolchain `rt`.

use std::env;
use std::path::{Path, PathBuf};
use std::process::Command;

fn main() {
    println!("cargo:rerun-if-env-changed=GRAPHQL_VALIDATION_FOLDER");
    let folder = found().unwrap_or_else(built);
    println!("cargo:rerun-if-changed={}", archive(&folder).display());
    println!("cargo:rustc-link-search=native={}", folder.display());
    println!("cargo:rustc-link-lib=static=graphql_validation");
    println!("cargo:folder={}", folder.display());
}

fn archive(folder: &Path) -> PathBuf {
    folder.join("libgraphql_validation.a")
}

fn checkout() -> PathBuf {
    Path::new(env!("CARGO_MANIFEST_DIR")).join("../..")
}

/// The folder that has the archive, if one is named or made.
fn found() -> Option<PathBuf> {
    if let Some(folder) = env::var_os("GRAPHQL_VALIDATION_FOLDER") {
        return Some(PathBuf::from(folder));
    }
    let folder = checkout().join("out/library");
    archive(&folder).is_file().then_some(folder)
}

fn built() -> PathBuf {
    let folder = PathBuf::from(env::var_os("OUT_DIR").expect("cargo sets OUT_DIR")).join("library");
    let script = checkout().join("scripts/build-library");
    let status = Command::new(script)
        .arg("--only-make")
        .arg(&folder)
        .status();
    assert!(
        status.is_ok_and(|it| it.success()),
        "scripts/build-library made no archive: build it, and name its folder by GRAPHQL_VALIDATION_FOLDER"
    );
    folder
}
