//! With the feature `library`, tells the linker where the proved library is: in
//! the folder that the variable ZEMAWULO_LIB names.

use std::env;
use std::path::PathBuf;

/// The library's name, without the `lib` and `.a` of its file.
const LIBRARY: &str = "zemawulo";

fn main() {
    println!("cargo:rerun-if-env-changed=ZEMAWULO_LIB");
    if env::var_os("CARGO_FEATURE_LIBRARY").is_none() {
        return;
    }
    let file = format!("lib{LIBRARY}.a");
    let Some(folder) = env::var_os("ZEMAWULO_LIB").map(PathBuf::from) else {
        panic!("set ZEMAWULO_LIB to the folder that holds {file}");
    };
    // A relative folder is meant from this package's folder, where cargo runs
    // this script; the linker runs elsewhere.
    let Ok(folder) = folder.canonicalize() else {
        panic!("ZEMAWULO_LIB names no folder: {}", folder.display());
    };
    let archive = folder.join(&file);
    if !archive.is_file() {
        panic!("no {file} in {}", folder.display());
    }
    println!("cargo:rerun-if-changed={}", archive.display());
    println!("cargo:rustc-link-search=native={}", folder.display());
    println!("cargo:rustc-link-lib=static={LIBRARY}");
}
