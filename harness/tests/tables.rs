//! The tables that the definitions are proved to agree with are what the Rust gives.

#[macro_use]
mod common;

live!(the_tables_are_the_rusts, {
    use std::{fs, path::Path};

    for table in harness::tables::TABLES {
        let file = format!("crates/{}/specs/{}.antt", table.of, table.name);
        let text = fs::read_to_string(Path::new(env!("CARGO_MANIFEST_DIR")).join("..").join(&file));
        assert!(
            text.expect("a file that can be read") == table.text(),
            "{file}: harness tables writes another"
        );
    }
});
