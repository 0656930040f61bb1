//! Brings the original's five files into the build. Their text is not kept in this repository: each is copied to the build's
//! own output folder, where what it keeps to itself is opened for reading.

use std::path::{Path, PathBuf};
use std::{env, fs};

const FILES: [&str; 5] = [
    "consistent_permutation",
    "consistent_reservoir",
    "consistent_hash",
    "choose_k",
    "node_map",
];

/// In which file, the text that hides something, and what stands in its place. `splitmix64` is there for the original's own
/// tests only. A reservoir is copied to see what a call would end with.
const OPENED: [(&str, &str, &str); 2] = [
    (
        "consistent_permutation",
        "#[cfg(test)]\n#[inline]\nfn splitmix64",
        "#[inline]\npub fn splitmix64",
    ),
    (
        "consistent_reservoir",
        "pub struct ConsistentReservoir {",
        "#[derive(Clone)]\npub struct ConsistentReservoir {",
    ),
];

/// In which file, and what is put behind its text: how to read private fields that are compared.
const READ: [(&str, &str); 2] = [
    (
        "consistent_permutation",
        "impl ConsistentPermutation { pub fn counters(&self) -> &[u32] { &self.counters } }",
    ),
    (
        "consistent_reservoir",
        "impl ConsistentReservoir {
            pub fn values(&self) -> &[u32] { &self.values }
            pub fn j_max(&self) -> u32 { self.j_max }
        }",
    ),
];

fn main() {
    let here = PathBuf::from(env::var("CARGO_MANIFEST_DIR").unwrap());
    let folder = env::var("CHOOSE_K_SRC").unwrap_or("../shared/docs/src".into());
    // A relative folder is meant from the repository's own.
    let source = here.join("..").join(folder);
    println!("cargo:rerun-if-env-changed=CHOOSE_K_SRC");
    let out = PathBuf::from(env::var("OUT_DIR").unwrap());
    let mut modules = String::new();
    for name in FILES {
        let from = source.join(format!("{name}.rs"));
        println!("cargo:rerun-if-changed={}", from.display());
        modules += &module(&from, &out.join(format!("{name}.rs")), name);
    }
    fs::write(out.join("original.rs"), modules).unwrap();
}

/// Copies one file, and answers the line that declares it.
fn module(from: &Path, to: &Path, name: &str) -> String {
    let mut text = fs::read_to_string(from).unwrap_or_else(|e| {
        panic!(
            "{}: {e}; CHOOSE_K_SRC names the folder of the original",
            from.display()
        )
    });
    for (_, hidden, open) in OPENED.iter().filter(|(file, _, _)| *file == name) {
        assert!(
            text.contains(hidden),
            "{}: no text {hidden:?}",
            from.display()
        );
        text = text.replace(hidden, open);
    }
    for (_, reader) in READ.iter().filter(|(file, _)| *file == name) {
        text += reader;
    }
    fs::write(to, text).unwrap();
    format!("#[path = {:?}]\npub mod {name};\n", to)
}
