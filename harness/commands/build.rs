//! Finds the port's libraries, which link.sh wrote, where the feature `port` asks for them.
use std::{env, path::PathBuf};

/// Each has the functions that the Rattle crate of its name exports itself, not those of the crates below it.
const LIBRARIES: [&str; 2] = ["effect", "ownership"];

fn main() {
    println!("cargo::rerun-if-env-changed=PORT_LIB");
    if env::var_os("CARGO_FEATURE_PORT").is_none() {
        return;
    }
    let here = PathBuf::from(env::var_os("CARGO_MANIFEST_DIR").expect("cargo sets it"));
    let folder = here.join("..").join(env::var_os("PORT_LIB").unwrap_or("../target/port".into()));
    for name in LIBRARIES {
        let library = folder.join(format!("lib{name}.a"));
        if !library.is_file() {
            let all = LIBRARIES.join(" ");
            println!(
                "cargo::error=the port's library {name} is missing: run harness/link.sh target/port {all}"
            );
            return;
        }
        println!("cargo::rerun-if-changed={}", library.display());
        println!("cargo::rustc-link-lib=static={name}");
    }
    println!("cargo::rustc-link-search=native={}", folder.display());
    // for the test that links a C program
    println!("cargo::rustc-env=PORT_FOLDER={}", folder.display());
}
