//! Puts jetdb's files, unchanged, into modules of this crate.
//!
//! A private function of a Rust module can only be called from inside it. So each module is written as jetdb's
//! file, byte for byte, with a short file of ours behind it (src/jetdb/) that hands the private functions out.

use std::path::{Path, PathBuf};
use std::{env, fs};

fn main() {
    let source = source_folder();
    let ours = PathBuf::from(env::var("CARGO_MANIFEST_DIR").unwrap()).join("src/jetdb");
    let mut text = String::new();
    for name in ["encoding", "form", "form2000"] {
        text += &module(name, &read(&source, name), &read(&ours, name));
    }
    let guid = function(&read(&source, "data"), "pub(crate) fn format_guid(");
    text += &module("data", &guid, "");
    let out = PathBuf::from(env::var("OUT_DIR").unwrap()).join("jetdb.rs");
    fs::write(out, text).unwrap();
    println!("cargo:rerun-if-env-changed=JETDB_SRC");
    println!("cargo:rerun-if-changed=build.rs");
}

/// JETDB_SRC, read from the repository's root; without it, the copy that stands beside the repository.
fn source_folder() -> PathBuf {
    let root = PathBuf::from(env::var("CARGO_MANIFEST_DIR").unwrap()).join("..");
    let named = env::var("JETDB_SRC").unwrap_or_default();
    let folder = if named.is_empty() { "../shared/docs/src/crates/jetdb/src" } else { &named };
    root.join(folder)
}

fn read(folder: &Path, name: &str) -> String {
    let path = folder.join(format!("{name}.rs"));
    println!("cargo:rerun-if-changed={}", path.display());
    fs::read_to_string(&path).unwrap_or_else(|e| panic!("{}: {e}; set JETDB_SRC to jetdb's src folder", path.display()))
}

fn module(name: &str, file: &str, behind: &str) -> String {
    format!("#[allow(dead_code, unused)]\npub mod {name} {{\n{file}\n{behind}}}\n")
}

/// The text of one function, from its head to the first line that is a lone brace.
fn function(file: &str, head: &str) -> String {
    let start = file.find(head).unwrap_or_else(|| panic!("no `{head}`"));
    let length = file[start..].find("\n}\n").unwrap_or_else(|| panic!("no end of `{head}`"));
    file[start..start + length + 3].to_string()
}
