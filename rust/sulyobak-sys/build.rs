//! Links libsulyobak.a: from the folder named by SULYOBAK_LIB_DIR, or from target/staticlib of the repository.
use std::env;
use std::path::PathBuf;
use std::process::exit;

fn main() {
    println!("cargo:rerun-if-env-changed=SULYOBAK_LIB_DIR");
    let folder = match env::var_os("SULYOBAK_LIB_DIR") {
        Some(folder) => PathBuf::from(folder),
        None => PathBuf::from(env::var_os("CARGO_MANIFEST_DIR").unwrap_or_default()).join("../../target/staticlib"),
    };
    let archive = folder.join("libsulyobak.a");
    println!("cargo:rerun-if-changed={}", archive.display());
    if !archive.is_file() {
        eprintln!("sulyobak: there is no {}", archive.display());
        eprintln!("sulyobak: build it with `rust/build-archives` at the root of the repository,");
        eprintln!("sulyobak: or name the folder that has libsulyobak.a in the variable SULYOBAK_LIB_DIR");
        exit(1);
    }
    println!("cargo:rustc-link-search=native={}", folder.display());
    println!("cargo:rustc-link-lib=static=sulyobak");
    println!("cargo:folder={}", folder.display()); // for the build of a crate above
}
