// Links every archive that scripts/native-archive has left in target/native. A test or benchmark whose archive is missing fails to link and names what it lacks.
use std::path::Path;

fn main() {
    let archives = Path::new(env!("CARGO_MANIFEST_DIR")).join("../target/native");
    println!("cargo:rustc-link-search=native={}", archives.display());
    println!("cargo:rerun-if-changed={}", archives.display());
    for entry in std::fs::read_dir(&archives).into_iter().flatten().flatten() {
        let file = entry.file_name().into_string().unwrap_or_default();
        if let Some(name) = file.strip_prefix("lib").and_then(|f| f.strip_suffix(".a")) {
            println!("cargo:rustc-link-lib=static={name}");
            println!("cargo:rerun-if-changed={}", entry.path().display());
        }
    }
}
