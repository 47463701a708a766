// Links the static libraries exports, sessions and edition_exports, which tools/build makes; LIBRARIES_DIR names another folder that has
// them.
use std::path::PathBuf;

fn main() {
    println!("cargo:rerun-if-env-changed=LIBRARIES_DIR");
    let folder = match std::env::var("LIBRARIES_DIR") {
        Ok(folder) => PathBuf::from(folder),
        Err(_) => {
            PathBuf::from(std::env::var("CARGO_MANIFEST_DIR").unwrap()).join("../target/staticlib")
        }
    };
    println!("cargo:rustc-link-search=native={}", folder.display());
    for library in ["exports", "sessions", "edition_exports"] {
        println!(
            "cargo:rerun-if-changed={}",
            folder.join(format!("lib{library}.a")).display()
        );
        println!("cargo:rustc-link-lib=static={library}");
    }
}
