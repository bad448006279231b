//! Links the proved archive, which host/build or host/archive has written before.

use std::env;
use std::path::Path;
use std::process::exit;

fn main() {
    let variable = |name: &str| env::var(name).unwrap_or_default();
    let target = variable("TARGET");
    if !target.starts_with("x86_64-") || !target.contains("-linux-") {
        fail(&format!(
            "the library is for x86-64 Linux, and not {}",
            target
        ));
    }
    let folder = Path::new(&variable("CARGO_MANIFEST_DIR")).join("../../../target/staticlib");
    let archive = folder.join("libpsp.a");
    if !archive.is_file() {
        let missing = "is missing: run host/build or host/archive";
        fail(&format!("{} {}", archive.display(), missing));
    }
    println!("cargo:rustc-link-search=native={}", folder.display());
    println!("cargo:rustc-link-lib=static=psp");
    println!("cargo:rerun-if-changed={}", archive.display());
}

fn fail(why: &str) -> ! {
    eprintln!("psp: {}", why);
    exit(1);
}
