//! Lays copies of Vine's files and of the worklist where the crate includes them from, with the edits of src/table.rs made.

use std::{env, fs, path::PathBuf};

#[path = "src/table.rs"]
mod table;

use table::{EDITS, Edit, SLIPS};

/// The files, and where they stand under Vine's folder.
const FILES: [(&str, &str); 5] = [
    ("analyzer.rs", "components/analyzer.rs"),
    ("effect.rs", "components/analyzer/effect.rs"),
    ("normalizer.rs", "components/normalizer.rs"),
    ("types.rs", "structures/types.rs"),
    ("vir.rs", "structures/vir.rs"),
];

fn main() {
    println!("cargo::rerun-if-changed=build.rs");
    println!("cargo::rerun-if-changed=src/table.rs");
    // vine_util's build.rs has found the folder and all files in it.
    let vine = variable("DEP_VINE_UTIL_SOURCES").join("vine/src");
    let worklist = variable("CARGO_MANIFEST_DIR").join("../src/worklist.rs");
    let files = FILES.map(|(name, file)| (name, vine.join(file)));
    for (name, file) in files.into_iter().chain([("worklist.rs", worklist)]) {
        println!("cargo::rerun-if-changed={}", file.display());
        // An included file may not speak of the module it stands in.
        let text = fs::read_to_string(&file).expect("a file can be read").replace("//!", "//");
        let edited = EDITS.iter().filter(|edit| edit.file == name).fold(text, made);
        fs::write(variable("OUT_DIR").join(name), edited).expect("OUT_DIR can be written");
    }
}

/// The text with one edit made in it.
fn made(text: String, Edit { slip, file, from, to }: &Edit) -> String {
    let found = text.matches(from).count();
    assert!(found == 1, "{slip}: {file} has {found} times, and not once:\n{from}");
    let number = SLIPS.iter().position(|(name, _)| name == slip).expect("an edit's slip is listed");
    text.replace(from, &to.replace("SLIP", &format!("crate::is_made({number})")))
}

fn variable(name: &str) -> PathBuf {
    env::var_os(name).expect("cargo sets it").into()
}
