//! What the examples share: the reading of a file.
use std::io::Read;
use std::path::Path;
use std::{fs, io};

/// The bytes of a file, where - is standard input; or nothing, and standard error tells why.
pub fn read(file: &Path) -> Option<Vec<u8>> {
    let bytes = if file.as_os_str() == "-" {
        let mut bytes = vec![];
        io::stdin().read_to_end(&mut bytes).map(|_| bytes)
    } else {
        fs::read(file)
    };
    bytes
        .inspect_err(|error| eprintln!("{}: {error}", file.display()))
        .ok()
}
