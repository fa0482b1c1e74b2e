//! Finds libmerinovault.a: in MERINOVAULT_LIB_DIR; else in target/staticlib of the checkout.
use std::env;
use std::path::{Path, PathBuf};

const ARCHIVE: &str = "libmerinovault.a";

fn main() {
    println!("cargo::rerun-if-changed=build.rs");
    println!("cargo::rerun-if-env-changed=MERINOVAULT_LIB_DIR");
    let folder = folder();
    println!("cargo::rerun-if-changed={}", folder.join(ARCHIVE).display());
    if folder.join(ARCHIVE).is_file() {
        println!("cargo::rustc-link-search=native={}", folder.display());
        println!("cargo::rustc-link-lib=static=merinovault");
    } else {
        println!(
            "cargo::error=no {ARCHIVE} in {}: make it in the checkout by `tools/native-lib.sh`, or name its folder in \
             MERINOVAULT_LIB_DIR",
            folder.display()
        );
    }
}

/// Where to look.
fn folder() -> PathBuf {
    if let Some(named) = env::var_os("MERINOVAULT_LIB_DIR") {
        return PathBuf::from(named);
    }
    let manifest = env::var_os("CARGO_MANIFEST_DIR").expect("cargo names the manifest's folder");
    Path::new(&manifest)
        .with_file_name("target")
        .join("staticlib")
}
