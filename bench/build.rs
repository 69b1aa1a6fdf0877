//! Links libbefore.a from the folder that NOLPIGAT_BEFORE_DIR names, with the feature `before`; `before_tables` is set
//! if it has the placing by table. The program bench needs none of this.

use std::path::{Path, PathBuf};
use std::{env, process};

const VARIABLE: &str = "NOLPIGAT_BEFORE_DIR";
const TABLES: &str = "before_nolpigat_place_by_table";

/// The archive has the placing by table, which its first commits lack.
fn has_tables(archive: &Path) -> bool {
    let bytes = std::fs::read(archive).expect("the archive is there");
    bytes.windows(TABLES.len()).any(|name| name == TABLES.as_bytes())
}

fn main() {
    println!("cargo:rerun-if-env-changed={VARIABLE}");
    println!("cargo:rustc-check-cfg=cfg(before_tables)");
    if env::var_os("CARGO_FEATURE_BEFORE").is_none() {
        return;
    }
    let folder = PathBuf::from(env::var_os(VARIABLE).unwrap_or_default());
    let archive = folder.join("libbefore.a");
    println!("cargo:rerun-if-changed={}", archive.display());
    if !archive.is_file() {
        eprintln!("{} is missing: run bench/before.sh, which makes it and sets {VARIABLE}", archive.display());
        process::exit(1);
    }
    if has_tables(&archive) {
        println!("cargo:rustc-cfg=before_tables");
    }
    println!("cargo:rustc-link-search=native={}", folder.display());
    println!("cargo:rustc-link-lib=static=before");
}
