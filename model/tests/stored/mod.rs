//! The stored command files.

use std::path::Path;

/// The commands of a kind's file, and its stored listing.
pub fn stored(kind: &str) -> (Vec<u8>, String) {
    let folder = Path::new(env!("CARGO_MANIFEST_DIR")).join(format!("../tests/listings/{kind}"));
    let commands = std::fs::read(folder.join("stdin")).unwrap();
    (commands, std::fs::read_to_string(folder.join("stdout")).unwrap())
}
