//! Links libcarts_c.a, the lower crate's scans, from the folder in which sulyobak-sys has found libsulyobak.a.
use std::env;
use std::path::PathBuf;
use std::process::exit;

fn main() {
    let folder = PathBuf::from(env::var_os("DEP_SULYOBAK_FOLDER").expect("sulyobak-sys names its folder"));
    let archive = folder.join("libcarts_c.a");
    println!("cargo:rerun-if-changed={}", archive.display());
    if !archive.is_file() {
        eprintln!("linked: there is no {}: build it with `rust/build-archives` at the root of the repository", archive.display());
        exit(1);
    }
    println!("cargo:rustc-link-search=native={}", folder.display());
    println!("cargo:rustc-link-lib=static=carts_c");
}
