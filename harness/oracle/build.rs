//! Finds rgrow's files through RGROW_SRC and holds them against `sources.sha256`: the oracle is
//! the Rust only as long as its text is the text that document 01 was written about.

use std::path::{Path, PathBuf};
use std::process::{exit, Command, Stdio};
use std::{env, fs};

const FILES: [&str; 4] = [
    "units.rs",
    "utils.rs",
    "models/sdc_common.rs",
    "models/sdc1d.rs",
];

fn main() {
    println!("cargo:rerun-if-env-changed=RGROW_SRC");
    println!("cargo:rerun-if-changed=sources.sha256");
    let sources = sources_folder();
    for file in FILES {
        println!("cargo:rerun-if-changed={}", sources.join(file).display());
    }
    verify(&sources);
    println!("cargo:rustc-env=RGROW_FILES={}", sources.display());
    write_module_declaration(&sources);
}

fn sources_folder() -> PathBuf {
    let Some(folder) = env::var_os("RGROW_SRC") else {
        fail("RGROW_SRC is not set: it names the folder that holds rgrow-rust/src");
    };
    let sources = Path::new(&folder).join("rgrow-rust/src");
    match sources.canonicalize() {
        Ok(found) => found,
        Err(error) => fail(&format!("{}: {error}", sources.display())),
    }
}

fn verify(sources: &Path) {
    let list = Path::new(&variable("CARGO_MANIFEST_DIR")).join("sources.sha256");
    let check = Command::new("sha256sum")
        .args(["--check", "--strict", "--quiet"])
        .arg(&list)
        .current_dir(sources)
        .stdin(Stdio::null())
        .output();
    match check {
        Ok(done) if done.status.success() => {}
        Ok(done) => fail(&format!(
            "rgrow's files are not those of sources.sha256:\n{}{}",
            String::from_utf8_lossy(&done.stdout),
            String::from_utf8_lossy(&done.stderr)
        )),
        Err(error) => fail(&format!("sha256sum: {error}")),
    }
}

/// `include!` can't take in a file that opens with `//!`, as sdc_common.rs does, and `#[path]`
/// takes a literal alone; so the declaration with the path is written here.
fn write_module_declaration(sources: &Path) {
    let path = sources.join("models/sdc_common.rs");
    let text = format!("#[path = {path:?}]\npub mod sdc_common;\n");
    let declaration = Path::new(&variable("OUT_DIR")).join("sdc_common_module.rs");
    if let Err(error) = fs::write(&declaration, text) {
        fail(&format!("{}: {error}", declaration.display()));
    }
}

fn variable(name: &str) -> std::ffi::OsString {
    env::var_os(name).unwrap_or_else(|| fail(&format!("cargo did not set {name}")))
}

fn fail(message: &str) -> ! {
    eprintln!("oracle: {message}");
    exit(1);
}
