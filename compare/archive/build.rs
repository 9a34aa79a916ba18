//! Links the product's static archive, which tools/archive also leaves in target/native
//! of the repository. LAMPTASSEL_LIB_DIR names another folder.

use std::env;
use std::path::{Path, PathBuf};

fn main() {
    println!("cargo::rerun-if-env-changed=LAMPTASSEL_LIB_DIR");
    let folder = match env::var_os("LAMPTASSEL_LIB_DIR") {
        Some(folder) => PathBuf::from(folder),
        None => {
            // archive, below compare, below the repository.
            let manifest = env::var_os("CARGO_MANIFEST_DIR").expect("cargo names the folder");
            let repository = Path::new(&manifest).ancestors().nth(2);
            repository.expect("two folders up").join("target/native")
        }
    };
    let archive = folder.join("liblamptassel.a");
    println!("cargo::rerun-if-changed={}", archive.display());
    if !archive.is_file() {
        println!(
            "cargo::error=build the archive first, by tools/archive: no {}",
            archive.display()
        );
        return;
    }
    println!("cargo::rustc-link-search=native={}", folder.display());
    println!("cargo::rustc-link-lib=static=lamptassel");
}
