//! Links the proved libraries, which `scripts/build leukarion_c leukarion_grammar_c` writes. Where they
//! aren't in the repository's target/staticlib, LEUKARION_LIB_DIR names their folder. The first is
//! always needed, the other by callers of `replay_by_grammar`, which don't link without it.

use std::env;
use std::path::{Path, PathBuf};

fn main() {
    println!("cargo:rerun-if-env-changed=LEUKARION_LIB_DIR");
    let folder = match env::var_os("LEUKARION_LIB_DIR") {
        Some(folder) => PathBuf::from(folder),
        None => {
            let package = env::var("CARGO_MANIFEST_DIR").unwrap();
            Path::new(&package).join("../target/staticlib")
        }
    };
    let library = folder.join("libleukarion_c.a");
    assert!(
        library.is_file(),
        "{} is not there: run `scripts/build leukarion_c` in the repository, or set LEUKARION_LIB_DIR \
         to the library's folder",
        library.display()
    );
    println!("cargo:rustc-link-search=native={}", folder.display());
    for name in ["leukarion_c", "leukarion_grammar_c"] {
        let library = folder.join(format!("lib{name}.a"));
        println!("cargo:rerun-if-changed={}", library.display());
        if library.is_file() {
            println!("cargo:rustc-link-lib=static={name}");
        }
    }
}
