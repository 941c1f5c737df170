//! Finds the static library of the Rattle crate `exports` through PORT_LIB, the folder that holds
//! libexports.a.

use std::path::Path;
use std::process::exit;

fn main() {
    println!("cargo:rerun-if-env-changed=PORT_LIB");
    let folder = match std::env::var("PORT_LIB") {
        Ok(folder) => folder,
        Err(_) => fail("PORT_LIB is not set: it names the folder that holds libexports.a"),
    };
    let library = Path::new(&folder).join("libexports.a");
    if !library.is_file() {
        fail(&format!("{} is not there", library.display()));
    }
    println!("cargo:rerun-if-changed={}", library.display());
    println!("cargo:rustc-link-search=native={folder}");
    println!("cargo:rustc-link-lib=static=exports");
}

fn fail(message: &str) -> ! {
    eprintln!("mujplesten: {message}");
    exit(1);
}
