// Read by the build scripts of `kounpheray` and `images`: links one of the
// engine's archives, and looks into it first, so that a missing archive or
// entry is told by name and not by the linker.

use std::env;
use std::fs;
use std::path::{Path, PathBuf};
use std::process::exit;

/// Links `lib{name}.a` of the archives' folder.
fn link(name: &str, entries: &[&str]) {
    println!("cargo:rerun-if-env-changed=KOUNPHERAY_ARCHIVES");
    println!("cargo:rerun-if-changed=../archive.rs");
    let archive = folder().join(format!("lib{name}.a"));
    println!("cargo:rerun-if-changed={}", archive.display());
    let bytes = fs::read(&archive).unwrap_or_else(|why| {
        stop(&format!(
            "{}: {why}; make it with `./build {name}`, or name its folder in \
             KOUNPHERAY_ARCHIVES",
            archive.display()
        ))
    });
    for entry in entries {
        if !has_symbol(&bytes, entry) {
            stop(&format!("{}: no entry {entry}", archive.display()));
        }
    }
    // A copy under a name of its own: so cargo's folders never decide which
    // archive is meant.
    let linked = format!("kounpheray_{name}");
    let out = PathBuf::from(env::var_os("OUT_DIR").expect("cargo sets OUT_DIR"));
    fs::write(out.join(format!("lib{linked}.a")), bytes)
        .unwrap_or_else(|why| stop(&why.to_string()));
    println!("cargo:rustc-link-search=native={}", out.display());
    println!("cargo:rustc-link-lib=static={linked}");
}

/// Where the archives are.
fn folder() -> PathBuf {
    match env::var_os("KOUNPHERAY_ARCHIVES") {
        Some(named) => PathBuf::from(named),
        None => {
            let here = env::var_os("CARGO_MANIFEST_DIR").expect("cargo sets CARGO_MANIFEST_DIR");
            Path::new(&here).join("../../target/staticlib")
        }
    }
}

/// Whether the name stands among the archive's names: with an end behind it
/// and no longer name in front.
fn has_symbol(archive: &[u8], name: &str) -> bool {
    let name = name.as_bytes();
    let in_a_name = |byte: u8| byte.is_ascii_alphanumeric() || byte == b'_';
    archive.windows(name.len() + 2).any(|part| {
        let (first, last) = (part[0], part[name.len() + 1]);
        !in_a_name(first) && &part[1..=name.len()] == name && last == 0
    })
}

fn stop(why: &str) -> ! {
    eprintln!("kounpheray: {why}");
    exit(1)
}
