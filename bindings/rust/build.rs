//! Tells the linker where `libzemawulo.a` is: in the folder that the variable
//! ZEMAWULO_LIB names, or where `rt lib` in crates/zemawulo writes it.

use std::env;
use std::path::PathBuf;

const ARCHIVE: &str = "libzemawulo.a";

fn main() {
    println!("cargo::rerun-if-env-changed=ZEMAWULO_LIB");
    let folder = env::var_os("ZEMAWULO_LIB")
        .map(PathBuf::from)
        .unwrap_or_else(|| PathBuf::from("../../crates/zemawulo/out"));
    let archive = folder.join(ARCHIVE);
    println!("cargo::rerun-if-changed={}", archive.display());
    match folder.canonicalize() {
        Ok(whole) if archive.is_file() => {
            println!("cargo::rustc-link-search=native={}", whole.display());
            println!("cargo::rustc-link-lib=static=zemawulo");
        }
        _ => println!(
            "cargo::error=The proved library {ARCHIVE} is not in {}. Make it with `rt lib` in the folder crates/zemawulo of \
             the project, or set ZEMAWULO_LIB to the folder that holds it.",
            folder.display()
        ),
    }
}
