//! Links the archive `libcapi.a`: from the folder that `LOVARNTEK_ARCHIVE` names, or from where the repository builds it.

use std::env;
use std::path::PathBuf;

fn main() {
    println!("cargo::rerun-if-env-changed=LOVARNTEK_ARCHIVE");
    let folder = match env::var_os("LOVARNTEK_ARCHIVE") {
        Some(folder) => PathBuf::from(folder),
        None => PathBuf::from(env!("CARGO_MANIFEST_DIR")).join("../target/staticlib"),
    };
    println!(
        "cargo::rerun-if-changed={}",
        folder.join("libcapi.a").display()
    );
    println!("cargo::rustc-link-search=native={}", folder.display());
    println!("cargo::rustc-link-lib=static=capi");
}
