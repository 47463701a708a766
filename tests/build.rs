//! Links the static libraries `exports`, `edition_exports`, `ipdr_exports` and `batch_exports` if all have been built.
//! Without one of them everything builds too, but the runner then refuses to compare the libraries' functions.
//!
//! They are looked for in `target/staticlib` of the repository, or in the directory that `EXPORTS_DIR` names.

use std::env;
use std::path::PathBuf;

const LIBRARIES: [&str; 4] = ["exports", "edition_exports", "ipdr_exports", "batch_exports"];

fn main() {
    let package = PathBuf::from(env::var("CARGO_MANIFEST_DIR").expect("cargo sets CARGO_MANIFEST_DIR"));
    let directory = match env::var("EXPORTS_DIR") {
        Ok(directory) => PathBuf::from(directory),
        Err(_) => package.join("../target/staticlib"),
    };
    println!("cargo:rerun-if-env-changed=EXPORTS_DIR");
    println!("cargo:rustc-check-cfg=cfg(libraries)");
    let files = LIBRARIES.map(|library| directory.join(format!("lib{library}.a")));
    for file in &files {
        println!("cargo:rerun-if-changed={}", file.display());
    }
    if files.iter().all(|file| file.is_file()) {
        println!("cargo:rustc-cfg=libraries");
        println!("cargo:rustc-link-search=native={}", directory.display());
        for library in LIBRARIES {
            println!("cargo:rustc-link-lib=static={library}");
        }
    }
}
