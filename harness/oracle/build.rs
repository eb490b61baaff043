//! Lays byte copies of Vine's files where the crate includes them from.

use std::{env, fs, path::PathBuf};

/// They are laid side by side: `mod effect;` inside an included analyzer.rs is looked up beside it.
const FILES: [&str; 5] = [
    "components/analyzer.rs",
    "components/analyzer/effect.rs",
    "components/normalizer.rs",
    "structures/types.rs",
    "structures/vir.rs",
];

fn main() {
    // vine_util's build.rs has found the folder and all files in it.
    let sources = variable("DEP_VINE_UTIL_SOURCES").join("vine/src");
    let out = variable("OUT_DIR");
    for file in FILES.map(|file| sources.join(file)) {
        println!("cargo::rerun-if-changed={}", file.display());
        let name = file.file_name().expect("a file's name");
        // Not `fs::copy`: the sources may be read-only, and a copy must be writable the next time.
        let bytes = fs::read(&file).expect("a file can be read");
        fs::write(out.join(name), bytes).expect("OUT_DIR can be written");
    }
}

fn variable(name: &str) -> PathBuf {
    env::var_os(name).expect("cargo sets it").into()
}
