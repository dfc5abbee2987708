//! Finds libg7110.a and has it linked: the file named by G7110_ARCHIVE, or target/staticlib/libg7110.a of this repository.

use std::env;
use std::path::{Path, PathBuf};

fn main() {
    println!("cargo:rerun-if-env-changed=G7110_ARCHIVE");
    let archive = archive();
    println!("cargo:rerun-if-changed={}", archive.display());
    if !archive.is_file() {
        eprintln!(
            "{} is missing. 'make archive' makes it; G7110_ARCHIVE may name it elsewhere.",
            archive.display()
        );
        std::process::exit(1);
    }
    if archive.file_name() != Some("libg7110.a".as_ref()) {
        eprintln!("G7110_ARCHIVE is {}, and the file must be named libg7110.a.", archive.display());
        std::process::exit(1);
    }
    let folder = archive.parent().expect("a file stands in a folder");
    println!("cargo:rustc-link-search=native={}", folder.display());
    println!("cargo:rustc-link-lib=static:-bundle=g7110");
}

fn archive() -> PathBuf {
    match env::var_os("G7110_ARCHIVE") {
        Some(named) => PathBuf::from(named),
        None => {
            let here = env::var_os("CARGO_MANIFEST_DIR").expect("cargo sets it");
            Path::new(&here).join("../target/staticlib/libg7110.a")
        }
    }
}
