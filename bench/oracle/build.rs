//! Finds the Rust sources, makes the two substitutions in a copy under
//! `OUT_DIR`, and says there where the copies are. Nothing of them enters this
//! tree. Where there are no sources the crate is built without an oracle.

use std::env;
use std::fs;
use std::path::{Path, PathBuf};
use std::process::exit;

/// What the DMA and controller functions need to compile.
const MODULES: [&str; 5] = ["edma", "io", "esdhc", "panel", "syntakt"];

/// A block that is replaced: the file, the text that ends at the block's
/// opening brace, and what takes the place of the block with that text.
struct Substitution {
    module: &'static str,
    head: &'static str,
    with: &'static str,
}

const SUBSTITUTIONS: [Substitution; 2] = [
    // The standing mask and the counted channels replace all other requests.
    Substitution {
        module: "io",
        head: "pub fn dma_requesting(&self) -> u64 {",
        with: "pub fn dma_requesting(&self) -> u64 {\n        crate::requests::requesting(self)\n    }",
    },
    // The four counts serve any four channels.
    Substitution {
        module: "edma",
        head: "match ch {",
        with: "crate::requests::spend(&mut self.io, ch);",
    },
];

fn main() {
    println!("cargo:rustc-check-cfg=cfg(rust_sources)");
    println!("cargo:rerun-if-env-changed=KOUNPHERAY_RUST");
    let Some(sources) = sources() else {
        println!(
            "cargo:warning=no Rust sources: set KOUNPHERAY_RUST to the folder that holds edma.rs; \
             without them nothing is compared with the Rust"
        );
        return;
    };
    let out = PathBuf::from(env::var_os("OUT_DIR").expect("cargo sets OUT_DIR"));
    let mut modules = String::new();
    for module in MODULES {
        let from = sources.join(format!("{module}.rs"));
        println!("cargo:rerun-if-changed={}", from.display());
        let text = fs::read_to_string(&from)
            .unwrap_or_else(|why| stop(&format!("{}: {why}", from.display())));
        let to = out.join(format!("{module}.rs"));
        fs::write(&to, substituted(module, text)).unwrap_or_else(|why| stop(&why.to_string()));
        modules += &format!("#[path = {:?}]\npub mod {module};\n", to.display().to_string());
    }
    fs::write(out.join("modules.rs"), modules).unwrap_or_else(|why| stop(&why.to_string()));
    println!("cargo:rustc-cfg=rust_sources");
}

/// The folder named by the environment, or the one that stands beside the
/// repository.
fn sources() -> Option<PathBuf> {
    if let Some(named) = env::var_os("KOUNPHERAY_RUST") {
        let named = PathBuf::from(named);
        if !named.join("edma.rs").is_file() {
            stop(&format!("KOUNPHERAY_RUST: no edma.rs in {}", named.display()));
        }
        return Some(named);
    }
    let here = env::var_os("CARGO_MANIFEST_DIR").expect("cargo sets CARGO_MANIFEST_DIR");
    let beside = Path::new(&here).join("../../../shared/docs/src/src");
    println!("cargo:rerun-if-changed={}", beside.join("edma.rs").display());
    beside.join("edma.rs").is_file().then_some(beside)
}

fn substituted(module: &str, text: String) -> String {
    SUBSTITUTIONS
        .iter()
        .filter(|change| change.module == module)
        .fold(text, |text, change| replaced(&text, change))
}

/// The text with one block replaced. The block must be there exactly once: a
/// source that has moved on is to be looked at, not guessed at.
fn replaced(text: &str, change: &Substitution) -> String {
    let found = text.matches(change.head).count();
    if found != 1 {
        stop(&format!(
            "{}.rs: `{}` stands there {found} times, not once",
            change.module, change.head
        ));
    }
    let start = text.find(change.head).expect("found above");
    let inside = start + change.head.len();
    let end = inside + closing_brace(&text[inside..]);
    format!("{}{}{}", &text[..start], change.with, &text[end..])
}

/// How far the brace that closes an opened block lies, itself included. The
/// blocks named above hold no brace in a comment or a string.
fn closing_brace(rest: &str) -> usize {
    let mut open = 1;
    for (at, byte) in rest.bytes().enumerate() {
        match byte {
            b'{' => open += 1,
            b'}' => open -= 1,
            _ => {}
        }
        if open == 0 {
            return at + 1;
        }
    }
    stop("a block that is to be replaced does not end")
}

fn stop(why: &str) -> ! {
    eprintln!("oracle: {why}");
    exit(1)
}
