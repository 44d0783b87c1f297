//! Links libeallunsa.a: from the folder that EALLUNSA_LIB names by its whole path, or from where `tools/package` or
//! `rt lib` in crates/eallunsa has put it.

use std::path::{Path, PathBuf};

fn main() {
    println!("cargo:rerun-if-env-changed=EALLUNSA_LIB");
    let here = Path::new(env!("CARGO_MANIFEST_DIR"));
    let folders = match std::env::var_os("EALLUNSA_LIB") {
        Some(folder) => vec![PathBuf::from(folder)],
        None => vec![here.join("../../../../lib"), here.join("../../crates/eallunsa/out")],
    };
    let found = folders.iter().find(|folder| folder.join("libeallunsa.a").is_file());
    let folder =
        found.unwrap_or_else(|| panic!("EALLUNSA_LIB has to name the folder of libeallunsa.a: {folders:?} has none"));
    println!("cargo:rerun-if-changed={}", folder.join("libeallunsa.a").display());
    println!("cargo:rustc-link-search=native={}", folder.display());
    println!("cargo:rustc-link-lib=static=eallunsa");
}
