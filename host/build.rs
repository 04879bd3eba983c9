//! Links the proved library: `libcapi.a`, which `scripts/native-archive capi` leaves in target/native.
//! HOARDMAGPIE_ARCHIVE names another folder.
use std::env;
use std::path::PathBuf;

fn main() {
    println!("cargo:rerun-if-env-changed=HOARDMAGPIE_ARCHIVE");
    let folder = match env::var_os("HOARDMAGPIE_ARCHIVE") {
        Some(folder) => PathBuf::from(folder),
        None => PathBuf::from(env!("CARGO_MANIFEST_DIR")).join("../target/native"),
    };
    let archive = folder.join("libcapi.a");
    println!("cargo:rerun-if-changed={}", archive.display());
    if !archive.exists() {
        eprintln!("{} is missing: run scripts/native-archive capi in the repository's root", archive.display());
        std::process::exit(1);
    }
    println!("cargo:rustc-link-search=native={}", folder.display());
    println!("cargo:rustc-link-lib=static=capi");
}
