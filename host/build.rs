//! Links libstructure_intake.a, the proved library, from the folder that PROVED_LIB names; without it, from
//! build/lib at the top of the repository. Where it is not there, what needs no linking still works.
use std::env;
use std::path::{Path, PathBuf};

fn main() {
    println!("cargo::rerun-if-env-changed=PROVED_LIB");
    let in_the_repository = Path::new(env!("CARGO_MANIFEST_DIR")).join("../build/lib");
    let folder = env::var_os("PROVED_LIB").map_or(in_the_repository, PathBuf::from);
    let library = folder.join("libstructure_intake.a");
    println!("cargo::rerun-if-changed={}", library.display());
    if library.is_file() {
        println!("cargo::rustc-link-search=native={}", folder.display());
        println!("cargo::rustc-link-lib=static=structure_intake");
    } else {
        println!(
            "cargo::warning=There is no file {}, so nothing that calls it can be linked: make it with `tools/staticlib build/lib structure_intake`, or set PROVED_LIB to the full path of its folder.",
            library.display()
        );
    }
}
