//! Finds the archive of the proved calls and links it.
use std::env;
use std::path::{Path, PathBuf};
use std::process::exit;

const ARCHIVE: &str = "libexport.a";

fn main() {
    println!("cargo:rerun-if-env-changed=MAZHORUKKU_LIB");
    let folder = folder();
    let archive = folder.join(ARCHIVE);
    println!("cargo:rerun-if-changed={}", archive.display());
    if !archive.is_file() {
        eprintln!(
            "{} is not there: run `bash host/archives.sh export` first, or set MAZHORUKKU_LIB to the folder that has {ARCHIVE}",
            archive.display()
        );
        exit(1);
    }
    println!("cargo:rustc-link-search=native={}", folder.display());
    println!("cargo:rustc-link-lib=static=export");
}

/// `MAZHORUKKU_LIB`, where a relative path counts from this crate's folder; else the place to which `host/archives.sh` writes.
fn folder() -> PathBuf {
    let crate_folder = env::var_os("CARGO_MANIFEST_DIR").expect("cargo sets CARGO_MANIFEST_DIR");
    let named = env::var_os("MAZHORUKKU_LIB").filter(|name| !name.is_empty());
    Path::new(&crate_folder).join(named.unwrap_or_else(|| "../../target/staticlib".into()))
}
