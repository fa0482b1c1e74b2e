//! Finds the two source files and hands their paths to `src/source.rs`.
//! Each is named by a variable of the environment, or stands in the folder `shared` beside the checkout.

use std::env;
use std::path::{Path, PathBuf};

const SHARED: &str = "../../shared/src--crates--rascal--src--";

fn main() {
    println!("cargo:rerun-if-changed=build.rs");
    hand_over("SOURCE_SWF_RS", "swf.rs.txt");
    hand_over("SOURCE_PCODE_RS", "internal--as2_pcode--pcode.rs.txt");
}

/// Exports the file's absolute path as `ORACLE_<variable>`.
fn hand_over(variable: &str, default_end: &str) {
    println!("cargo:rerun-if-env-changed={variable}");
    let named = match env::var_os(variable) {
        Some(path) => PathBuf::from(path),
        None => PathBuf::from(format!("{SHARED}{default_end}")),
    };
    let here = env::var_os("CARGO_MANIFEST_DIR").expect("cargo sets CARGO_MANIFEST_DIR");
    let path = Path::new(&here).join(named);
    let path = path
        .canonicalize()
        .unwrap_or_else(|e| panic!("{}: {e}; name the file by {variable}", path.display()));
    println!("cargo:rerun-if-changed={}", path.display());
    println!("cargo:rustc-env=ORACLE_{variable}={}", path.display());
}
