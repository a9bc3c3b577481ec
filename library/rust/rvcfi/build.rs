//! Links the two archives that `library/build.sh` makes, from the folder in `RVCFI_LIB` where it names one, else from `library/lib`.

use std::env;
use std::path::{Path, PathBuf};

const ARCHIVES: [&str; 2] = ["rvcfi_c", "rvcfi_heap"];

/// The folder of the archives for the target.
fn folder() -> PathBuf {
    if let Some(named) = env::var_os("RVCFI_LIB") {
        return PathBuf::from(named);
    }
    let library = Path::new(env!("CARGO_MANIFEST_DIR")).join("../../lib");
    match env::var("CARGO_CFG_TARGET_ARCH").as_deref() {
        Ok("aarch64") => library.join("aarch64"),
        _ => library,
    }
}

fn main() {
    let folder = folder();
    println!("cargo:rerun-if-env-changed=RVCFI_LIB");
    println!("cargo:rustc-link-search=native={}", folder.display());
    for name in ARCHIVES {
        let archive = folder.join(format!("lib{name}.a"));
        if !archive.exists() {
            panic!(
                "{} is not there: run library/build.sh, or name the folder that has it in RVCFI_LIB",
                archive.display()
            );
        }
        println!("cargo:rerun-if-changed={}", archive.display());
        println!("cargo:rustc-link-lib=static={name}");
    }
}
