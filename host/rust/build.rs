//! Finds libcazdrob.a: in the folder that CAZDROB_LIB_DIR names, else where `scripts/archive` writes it in this repository.
use std::env;
use std::path::PathBuf;
use std::process::exit;

fn main() {
    println!("cargo:rerun-if-env-changed=CAZDROB_LIB_DIR");
    let folder = match env::var_os("CAZDROB_LIB_DIR") {
        Some(folder) => PathBuf::from(folder),
        None => PathBuf::from(env::var_os("CARGO_MANIFEST_DIR").expect("cargo sets it")).join("../../target/staticlib"),
    };
    let archive = folder.join("libcazdrob.a");
    if !archive.is_file() {
        eprintln!(
            "error: {} is missing: run 'scripts/archive' at the root of the repository, \
             or set CAZDROB_LIB_DIR to the folder of an installed libcazdrob.a",
            archive.display()
        );
        exit(1);
    }
    // an archive that was proved anew is linked anew
    println!("cargo:rerun-if-changed={}", archive.display());
    println!("cargo:rustc-link-search=native={}", folder.display());
    println!("cargo:rustc-link-lib=static=cazdrob");
}
