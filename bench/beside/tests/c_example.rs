//! Compiles the example in C against the header and the archives, and runs it.

use std::env;
use std::path::{Path, PathBuf};
use std::process::Command;

fn root() -> PathBuf {
    Path::new(env!("CARGO_MANIFEST_DIR")).join("../..")
}

fn archives() -> [PathBuf; 2] {
    let folder = match env::var_os("KOUNPHERAY_ARCHIVES") {
        Some(named) => PathBuf::from(named),
        None => root().join("target/staticlib"),
    };
    ["libdirect.a", "libentries.a"].map(|name| folder.join(name))
}

/// Runs a command and answers what it wrote.
fn output(command: &mut Command) -> String {
    let made = command.output().unwrap_or_else(|why| panic!("{command:?}: {why}"));
    let told = String::from_utf8_lossy(&made.stdout).into_owned();
    let wrong = String::from_utf8_lossy(&made.stderr);
    assert!(made.status.success(), "{command:?}\n{told}{wrong}");
    told
}

#[test]
fn the_example_in_c() {
    let program = Path::new(env!("CARGO_TARGET_TMPDIR")).join("example");
    let compiler = env::var("KOUNPHERAY_CC").unwrap_or_else(|_| "cc".to_string());
    output(
        Command::new(compiler)
            .args(["-std=c99", "-Wall", "-Wextra", "-Wpedantic", "-Werror", "-O2", "-I"])
            .arg(root().join("include"))
            .arg(root().join("bench/c/example.c"))
            .args(archives())
            .arg("-o")
            .arg(&program),
    );
    let mut command = match beside::runner() {
        None => Command::new(&program),
        Some((runner, words)) => {
            let mut command = Command::new(runner);
            command.args(words).arg(&program);
            command
        }
    };
    let told = output(&mut command);
    println!("{told}");
    assert!(told.contains("20 acts taken back"), "{told}");
    assert!(told.contains("as the chip does it"), "{told}");
    assert!(told.contains("departs at access 1"), "{told}");
}
