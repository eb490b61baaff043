//! Finds Vine's sources, says where they are, and lays a byte copy of idx.rs where the crate includes it from.

use std::{env, fs, path::Path, path::PathBuf, process};

/// The files that are compiled unchanged, here and in the crate above.
const FILES: [&str; 6] = [
    "util/src/idx.rs",
    "vine/src/components/analyzer.rs",
    "vine/src/components/analyzer/effect.rs",
    "vine/src/components/normalizer.rs",
    "vine/src/structures/types.rs",
    "vine/src/structures/vir.rs",
];

fn main() {
    println!("cargo::rerun-if-env-changed=VINE_SRC");
    let sources = sources();
    for file in FILES.map(|file| sources.join(file)) {
        println!("cargo::rerun-if-changed={}", file.display());
        if !file.is_file() {
            missing(&file);
        }
    }
    println!("cargo::metadata=sources={}", sources.display());
    // Not `fs::copy`: the sources may be read-only, and a copy must be writable the next time.
    let idx = fs::read(sources.join(FILES[0])).expect("idx.rs can be read");
    fs::write(variable("OUT_DIR").join("idx.rs"), idx).expect("OUT_DIR can be written");
}

/// Where VINE_SRC points, else beside the repository; a relative path is seen from the repository's root.
fn sources() -> PathBuf {
    let root = variable("CARGO_MANIFEST_DIR").join("../../..");
    let named = env::var_os("VINE_SRC").filter(|path| !path.is_empty());
    root.join(named.unwrap_or_else(|| "../shared/docs/src".into()))
}

fn variable(name: &str) -> PathBuf {
    env::var_os(name).expect("cargo sets it").into()
}

fn missing(file: &Path) -> ! {
    println!(
        "cargo::error=Vine's sources are not at hand: no {}; VINE_SRC names their folder",
        file.display()
    );
    process::exit(1)
}
