//! include/vine_ownership.h by a C compiler: a program against it compiles without a warning and, linked, is answered
//! as Rust is. Where there is no `cc` there is nothing to try, and a line says so.

use std::{
    io::ErrorKind,
    path::{Path, PathBuf},
    process::Command,
};

/// The C compiler on tests/header.c, or nothing where there is none.
fn compiler() -> Option<Command> {
    let here = Path::new(env!("CARGO_MANIFEST_DIR"));
    match Command::new("cc").arg("--version").output() {
        Err(why) if why.kind() == ErrorKind::NotFound => {
            eprintln!("no C compiler: the header was not tried");
            None
        }
        _ => {
            let mut cc = Command::new("cc");
            cc.args(["-std=c11", "-Wall", "-Wextra", "-Wpedantic", "-Werror", "-I"])
                .arg(here.join("../include"));
            cc.arg(here.join("tests/header.c"));
            Some(cc)
        }
    }
}

fn output(name: &str) -> PathBuf {
    Path::new(env!("CARGO_TARGET_TMPDIR")).join(name)
}

fn run(mut cc: Command) {
    let done = cc.output().expect("cc runs");
    assert!(done.status.success(), "{}", String::from_utf8_lossy(&done.stderr));
}

#[test]
fn the_header_compiles() {
    if let Some(mut cc) = compiler() {
        cc.arg("-c").arg("-o").arg(output("header.o"));
        run(cc);
    }
}

#[test]
#[cfg_attr(not(feature = "port"), ignore = "the port's library is not at hand")]
fn a_c_program_is_answered() {
    #[cfg(feature = "port")]
    linked::a_c_program_is_answered();
}

#[cfg(feature = "port")]
mod linked {
    use std::{io::Write, process::Stdio};

    use harness::{
        check::{Rule, check},
        generate::{Family, fault, image},
    };

    use super::*;

    pub fn a_c_program_is_answered() {
        let Some(mut cc) = compiler() else { return };
        let program = output("header");
        cc.arg(Path::new(env!("PORT_FOLDER")).join("libownership.a")).arg("-o").arg(&program);
        run(cc);
        let refused = fault(Rule::PortKind, 1).bytes;
        for image in [image(Family::FlatSmall, 1), image(Family::LayeredSmall, 1), refused] {
            let own = check(&image);
            assert_eq!(answered(&program, &image), format!("{} {} {}\n", own.code, own.place, own.kind));
        }
    }

    /// What the program writes about an image.
    fn answered(program: &Path, image: &[u8]) -> String {
        let mut child =
            Command::new(program).stdin(Stdio::piped()).stdout(Stdio::piped()).spawn().expect("it starts");
        child.stdin.take().expect("it is a pipe").write_all(image).expect("it reads all");
        let done = child.wait_with_output().expect("it ends");
        assert!(done.status.success());
        String::from_utf8(done.stdout).expect("it writes numbers")
    }
}
