//! Links the proved archive, which `rt lib` in `crates/felknost` writes to that crate's folder `out`. `FELKNOST_ARCHIVE` names another folder with a
//! `libfelknost.a`.

use std::path::{Path, PathBuf};

fn main() {
    println!("cargo:rerun-if-env-changed=FELKNOST_ARCHIVE");
    let folder = std::env::var_os("FELKNOST_ARCHIVE").map_or_else(
        || Path::new(env!("CARGO_MANIFEST_DIR")).join("../../crates/felknost/out"),
        PathBuf::from,
    );
    let archive = folder.join("libfelknost.a");
    println!("cargo:rerun-if-changed={}", archive.display());
    assert!(
        archive.exists(),
        "libfelknost.a is missing: run `rt lib` in crates/felknost first"
    );
    println!("cargo:rustc-link-search=native={}", folder.display());
    println!("cargo:rustc-link-lib=static=felknost");
}
