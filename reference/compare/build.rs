//! Links the proved library, `crates/abi/out/libabi.a` of the repository.
//! The variable LUTEMARBLE_STATICLIB names another folder that has it.

use std::env;
use std::path::PathBuf;
use std::process::exit;

fn main() {
    println!("cargo:rerun-if-env-changed=LUTEMARBLE_STATICLIB");
    let folder = match env::var_os("LUTEMARBLE_STATICLIB") {
        Some(folder) => PathBuf::from(folder),
        None => PathBuf::from(env!("CARGO_MANIFEST_DIR")).join("../../crates/abi/out"),
    };
    let library = folder.join("libabi.a");
    println!("cargo:rerun-if-changed={}", library.display());
    if !library.is_file() {
        eprintln!(
            "{} is missing: run `rt lib --cpu x86-64` in crates/abi first",
            library.display()
        );
        exit(1);
    }
    println!("cargo:rustc-link-search=native={}", folder.display());
    println!("cargo:rustc-link-lib=static=abi");
}
