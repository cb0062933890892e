//! Links the proved reader's archive.

use std::path::Path;
use std::process::exit;

fn main() {
    let folder = Path::new(env!("CARGO_MANIFEST_DIR")).join("../crates/office/out");
    let archive = folder.join("liboffice.a");
    println!("cargo::rerun-if-changed={}", archive.display());
    if !archive.is_file() {
        eprintln!("The proved reader's archive crates/office/out/liboffice.a is not there. Make it first, in crates/office: rt lib");
        exit(1);
    }
    println!("cargo::rustc-link-search=native={}", folder.display());
    println!("cargo::rustc-link-lib=static=office");
}
