//! Puts the supplied lexer, cursor and parser, byte for byte, beside the two stub action modules, so that the
//! supplied `mod` lines find all their files; and writes the module tree that lib.rs takes in.

use std::path::{Path, PathBuf};
use std::{env, fs};

/// The supplied files, below docs/src/crates/dali2rust-rules-lang/src.
const SUPPLIED: [&str; 8] = [
    "lexer.rs",
    "cursor.rs",
    "parser/mod.rs",
    "parser/condition.rs",
    "parser/expr.rs",
    "parser/refs.rs",
    "parser/timeval.rs",
    "parser/trigger.rs",
];
/// The stubs, below stubs/, for the two modules of the parser that are not supplied.
const STUBS: [&str; 2] = ["parser/action.rs", "parser/action_light.rs"];
const MODULES: [(&str, &str); 3] = [("lexer", "lexer.rs"), ("cursor", "cursor.rs"), ("parser", "parser/mod.rs")];

fn variable(name: &str) -> PathBuf {
    PathBuf::from(env::var_os(name).unwrap_or_else(|| panic!("cargo sets {name}")))
}

fn copy(files: &[&str], from: &Path, to: &Path) {
    for file in files {
        let source = from.join(file);
        println!("cargo::rerun-if-changed={}", source.display());
        let bytes = fs::read(&source).unwrap_or_else(|e| panic!("{}: {e}", source.display()));
        fs::write(to.join(file), bytes).expect("the build's own folder can be written");
    }
}

fn main() {
    println!("cargo::rerun-if-changed=build.rs");
    let here = variable("CARGO_MANIFEST_DIR");
    let out = variable("OUT_DIR");
    let lang = out.join("lang");
    fs::create_dir_all(lang.join("parser")).expect("the build's own folder can be written");
    copy(&SUPPLIED, &here.join("../../docs/src/crates/dali2rust-rules-lang/src"), &lang);
    copy(&STUBS, &here.join("stubs"), &lang);
    let mut tree = String::new();
    for (module, file) in MODULES {
        tree += &format!("#[path = {:?}]\n#[allow(dead_code)]\nmod {module};\n", lang.join(file));
    }
    fs::write(out.join("tree.rs"), tree).expect("the build's own folder can be written");
}
