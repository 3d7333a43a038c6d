//! Links the library's archive: from the folder in `HPFADDR_ARCHIVE_DIR`, or else
//! from the one in which `tools/archive` leaves it.

use std::env;
use std::path::{Path, PathBuf};

const FOLDER: &str = "HPFADDR_ARCHIVE_DIR";

fn main() {
    let folder = archive_folder();
    println!("cargo:rerun-if-env-changed={FOLDER}");
    println!(
        "cargo:rerun-if-changed={}",
        folder.join("libhpfaddr.a").display()
    );
    println!("cargo:rustc-link-search=native={}", folder.display());
    println!("cargo:rustc-link-lib=static=hpfaddr");
}

fn archive_folder() -> PathBuf {
    match env::var_os(FOLDER) {
        Some(folder) => PathBuf::from(folder),
        None => Path::new(env!("CARGO_MANIFEST_DIR")).join("../target/staticlib"),
    }
}
