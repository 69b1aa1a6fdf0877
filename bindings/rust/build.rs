//! Links libnolpigat.a: from the repository's crates/nolpigat/out, or the folder that NOLPIGAT_LIB_DIR names.

use std::path::{Path, PathBuf};
use std::{env, process};

const VARIABLE: &str = "NOLPIGAT_LIB_DIR";
const ARCHIVE: &str = "libnolpigat.a";

fn fail(what: &str) -> ! {
    eprintln!("error: {what}");
    process::exit(1);
}

/// The folder that the variable names. A relative one begins where cargo was started: a build script runs in the
/// package's folder, so the shell's PWD is asked.
fn named(folder: PathBuf) -> PathBuf {
    if folder.is_absolute() {
        return folder;
    }
    println!("cargo:rerun-if-env-changed=PWD");
    match env::var_os("PWD") {
        Some(started) => Path::new(&started).join(folder),
        None => fail(&format!("{VARIABLE} is {}, and PWD is not set: give a whole path", folder.display())),
    }
}

fn main() {
    println!("cargo:rerun-if-env-changed={VARIABLE}");
    let given = env::var_os(VARIABLE).filter(|value| !value.is_empty()).map(PathBuf::from);
    let crate_folder = Path::new(env!("CARGO_MANIFEST_DIR")).join("../../crates/nolpigat");
    let folder = given.clone().map_or_else(|| crate_folder.join("out"), named);
    let archive = folder.join(ARCHIVE);
    println!("cargo:rerun-if-changed={}", archive.display());
    if !archive.is_file() {
        fail(&match given {
            Some(value) => format!(
                "{} is missing: {VARIABLE} is {}, and must name the folder of {ARCHIVE}, by a whole path or from where \
                 cargo was started",
                archive.display(),
                value.display()
            ),
            None => format!(
                "{} is missing: run `rt lib --cpu x86-64` in {}, or set {VARIABLE} to the folder of {ARCHIVE}",
                archive.display(),
                crate_folder.display()
            ),
        });
    }
    println!("cargo:rustc-link-search=native={}", folder.display());
    println!("cargo:rustc-link-lib=static=nolpigat");
}
