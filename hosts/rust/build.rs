//! Links the proved library: libarbiter.a in the folder that ARBITER_LIB_DIR names (an absolute path), or where `tools/build arbiter` writes it.

use std::env;
use std::path::PathBuf;
use std::process::exit;

fn main() {
    println!("cargo:rerun-if-env-changed=ARBITER_LIB_DIR");
    let folder = match env::var_os("ARBITER_LIB_DIR") {
        Some(folder) => PathBuf::from(folder),
        None => PathBuf::from(env::var_os("CARGO_MANIFEST_DIR").expect("cargo sets it")).join("../../target/staticlib"),
    };
    // Cargo and the linker would each look from another folder.
    if folder.is_relative() {
        stop(&format!("ARBITER_LIB_DIR is {}, and has to be an absolute path", folder.display()));
    }
    let library = folder.join("libarbiter.a");
    println!("cargo:rerun-if-changed={}", library.display());
    if !library.is_file() {
        stop(&format!(
            "there is no {}\nProve and build it with 'tools/build arbiter' in the repository, or set ARBITER_LIB_DIR to the folder that has it (an absolute path).",
            library.display()
        ));
    }
    println!("cargo:rustc-link-search=native={}", folder.display());
    println!("cargo:rustc-link-lib=static=arbiter");
}

fn stop(why: &str) -> ! {
    eprintln!("arbiter: {why}");
    exit(1);
}
