//! Links the archives of the proved functions from the folder that PROVED_LIB names; without it, from
//! build/lib at the top of the repository.
use std::env;
use std::path::{Path, PathBuf};

/// The crates whose exported functions are called.
const ARCHIVES: [&str; 3] = ["probe_fields", "probe_structures", "structure_intake"];

fn main() {
    println!("cargo::rerun-if-env-changed=PROVED_LIB");
    let in_the_repository = Path::new(env!("CARGO_MANIFEST_DIR")).join("../build/lib");
    let folder = env::var_os("PROVED_LIB").map_or(in_the_repository, PathBuf::from);
    println!("cargo::rustc-link-search=native={}", folder.display());
    for name in ARCHIVES {
        let library = folder.join(format!("lib{name}.a"));
        println!("cargo::rerun-if-changed={}", library.display());
        if library.is_file() {
            println!("cargo::rustc-link-lib=static={name}");
        } else {
            println!(
                "cargo::error=There is no file {}: make it with `tools/staticlib build/lib {name}`, or set PROVED_LIB to the full path of its folder.",
                library.display()
            );
        }
    }
}
