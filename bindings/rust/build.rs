//! Links the three archives: from SALTLICKER_LIB, else from where `bin/library` leaves them.

use std::path::PathBuf;

fn main() {
    let home = PathBuf::from(std::env::var_os("CARGO_MANIFEST_DIR").expect("cargo sets it"));
    let folder = std::env::var_os("SALTLICKER_LIB")
        .map_or(home.join("../../target/staticlib"), PathBuf::from);
    println!("cargo:rerun-if-env-changed=SALTLICKER_LIB");
    println!("cargo:rustc-link-search=native={}", folder.display());
    for name in ["saltlicker", "saltlicker_audit", "saltlicker_text"] {
        let archive = folder.join(format!("lib{name}.a"));
        if !archive.exists() {
            println!(
                "cargo:warning=no {}: run bin/library, or set SALTLICKER_LIB to its folder",
                archive.display()
            );
        }
        println!("cargo:rerun-if-changed={}", archive.display());
        println!("cargo:rustc-link-lib=static={name}");
    }
}
