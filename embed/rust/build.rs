//! Links `libfloo_c.a`, `libfloor_c.a`, `libledger_c.a` and `libforf_c.a`: from the folder that `FLOO_LIB_DIR` names, or from `target/staticlib` of this repository, where embed/libraries.sh puts them.

use std::env;
use std::path::PathBuf;

fn main() {
    println!("cargo:rerun-if-env-changed=FLOO_LIB_DIR");
    let folder = match env::var_os("FLOO_LIB_DIR") {
        Some(folder) => PathBuf::from(folder),
        None => PathBuf::from(env!("CARGO_MANIFEST_DIR")).join("../../target/staticlib"),
    };
    println!("cargo:rustc-link-search=native={}", folder.display());
    for name in ["floo_c", "floor_c", "ledger_c", "forf_c"] {
        let library = folder.join(format!("lib{name}.a"));
        if !library.is_file() {
            panic!(
                "{} is not there: run embed/libraries.sh, or name its folder in FLOO_LIB_DIR",
                library.display()
            );
        }
        println!("cargo:rerun-if-changed={}", library.display());
        println!("cargo:rustc-link-lib=static={name}");
    }
}
