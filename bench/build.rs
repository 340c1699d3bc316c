//! Compiles the calls to Berkeley DB's lock manager, where they are asked for.

use std::path::Path;
use std::process::Command;

fn main() {
    println!("cargo:rerun-if-changed=berkeley.c");
    if std::env::var_os("CARGO_FEATURE_BERKELEY").is_none() {
        return;
    }
    let folder = std::env::var("OUT_DIR").expect("cargo sets it");
    let object = Path::new(&folder).join("berkeley.o");
    let archive = Path::new(&folder).join("libberkeley.a");
    run(Command::new("cc").args(["-O3", "-Wall", "-c", "berkeley.c", "-o"]).arg(&object));
    run(Command::new("ar").arg("crs").arg(&archive).arg(&object));
    println!("cargo:rustc-link-search=native={folder}");
    println!("cargo:rustc-link-lib=static=berkeley");
    println!("cargo:rustc-link-lib=dylib=db-5.3");
}

fn run(command: &mut Command) {
    let done = command.status().expect("a C compiler and ar are installed");
    assert!(done.success(), "{command:?}");
}
