//! Finds the static library: `TUNAPROW_LIB` names the file, and without it `rt lib` proves and builds it, from nothing
//! in about half an hour.

use std::path::{Path, PathBuf};
use std::process::Command;
use std::{env, fs};

fn main() {
    println!("cargo:rerun-if-env-changed=TUNAPROW_LIB");
    let library = match env::var_os("TUNAPROW_LIB") {
        Some(file) => PathBuf::from(file),
        None => proved(&Path::new(env!("CARGO_MANIFEST_DIR")).join("../../crates")),
    };
    println!("cargo:rerun-if-changed={}", library.display());
    let folder = PathBuf::from(env::var_os("OUT_DIR").expect("cargo names OUT_DIR"));
    if let Err(error) = fs::copy(&library, folder.join("libsumcheck_c.a")) {
        panic!("{}: {error}: TUNAPROW_LIB has to name libsumcheck_c.a", library.display());
    }
    println!("cargo:rustc-link-search=native={}", folder.display());
    println!("cargo:rustc-link-lib=static=sumcheck_c");
}

/// The library that the toolchain proves and builds of the crates of this repository.
fn proved(crates: &Path) -> PathBuf {
    println!("cargo:rerun-if-changed={}", crates.join("../crates.txt").display());
    let folder = crates.join("sumcheck_c");
    match Command::new("rt").arg("lib").current_dir(&folder).status() {
        Ok(status) if status.success() => folder.join("out/libsumcheck_c.a"),
        Ok(status) => panic!("`rt lib` in {} ended with {status}", folder.display()),
        Err(error) => {
            panic!("TUNAPROW_LIB is not set, and the command rt of the Rattle toolchain does not run: {error}")
        }
    }
}
