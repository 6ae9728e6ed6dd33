//! Where the proved library is linked from: `c/library` at the repository's top writes it. Another folder can be named
//! in MEANDERPEG_LIBRARY_DIR.

use std::env;
use std::path::{Path, PathBuf};

/// What keeps the package from being built, in words.
fn faults(library: &Path) -> Vec<String> {
    let target = |name: &str| env::var(format!("CARGO_CFG_TARGET_{name}")).unwrap_or_default();
    let (arch, width) = (target("ARCH"), target("POINTER_WIDTH"));
    let mut faults = vec![];
    if arch != "x86_64" || width != "64" {
        faults
            .push(format!("the library holds code for x86-64 with 64-bit pointers; this build is for {arch}, {width}"));
    }
    if !library.is_file() {
        faults.push(format!("the proved library {} is not there", library.display()));
        faults.push("`c/library`, run at the top of Meanderpeg's repository, proves and writes it".to_string());
        faults.push("or name the folder that holds it in the environment variable MEANDERPEG_LIBRARY_DIR".to_string());
    }
    faults
}

/// What may keep its user from linking it, in words.
fn doubts() -> Option<String> {
    let os = env::var("CARGO_CFG_TARGET_OS").unwrap_or_default();
    let other = ["windows", "uefi", "cygwin", "macos"].contains(&os.as_str());
    other.then(|| format!("the library's objects are ELF, and a linker for {os} may want them in another format"))
}

fn main() {
    println!("cargo::rerun-if-env-changed=MEANDERPEG_LIBRARY_DIR");
    let package = PathBuf::from(env::var("CARGO_MANIFEST_DIR").unwrap_or_default());
    let named = env::var("MEANDERPEG_LIBRARY_DIR").unwrap_or("../target/staticlib".to_string());
    // A path that is not absolute counts from this package's folder.
    let folder = package.join(named);
    let library = folder.join("libmeanderpeg.a");
    println!("cargo::rerun-if-changed={}", library.display());
    for fault in faults(&library) {
        println!("cargo::error={fault}");
    }
    if let Some(doubt) = doubts() {
        println!("cargo::warning={doubt}");
    }
    println!("cargo::rustc-link-search=native={}", folder.display());
    println!("cargo::rustc-link-lib=static=meanderpeg");
}
