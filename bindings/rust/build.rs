//! Links the proved library, which `tools/staticlib` makes at the root of the repository. TERGYOSUL_LIB_DIR names
//! another folder that has it.

use std::env;
use std::path::PathBuf;

const FOLDER: &str = "TERGYOSUL_LIB_DIR";
const ARCHIVE: &str = "libtergyosul.a";

fn main() {
    println!("cargo::rerun-if-changed=build.rs");
    println!("cargo::rerun-if-env-changed={FOLDER}");
    let here = PathBuf::from(env::var_os("CARGO_MANIFEST_DIR").expect("cargo sets CARGO_MANIFEST_DIR"));
    let folder = match env::var_os(FOLDER) {
        Some(folder) => PathBuf::from(folder),
        None => here.join("../../target/staticlib"),
    };
    let archive = folder.join(ARCHIVE);
    println!("cargo::rerun-if-changed={}", archive.display());
    if !archive.is_file() {
        let path = archive.display();
        println!("cargo::error={path} is missing: run `tools/staticlib` at the root, or set {FOLDER} to its folder");
        return;
    }
    println!("cargo::rustc-link-search=native={}", folder.display());
    println!("cargo::rustc-link-lib=static=tergyosul");
}
