//! The comparison finds no difference in the model's own program, and finds each
//! way in which a program can differ.

use std::os::unix::fs::PermissionsExt;
use std::path::Path;
use std::process::Command;

/// The exit status, and the last line without the seeds.
fn compare(program: &str, kind: &str) -> (Option<i32>, String) {
    let output =
        Command::new(env!("CARGO_BIN_EXE_compare")).args([program, kind, "5", "2", "50"]).output().unwrap();
    let text = String::from_utf8(output.stdout).unwrap();
    let last = text.lines().last().unwrap_or("").split(';').next().unwrap().to_string();
    (output.status.code(), last)
}

/// A shell script in which LISTING is the model's program.
fn script(name: &str, body: &str) -> String {
    let path = Path::new(env!("CARGO_TARGET_TMPDIR")).join(name);
    let body = body.replace("LISTING", concat!("'", env!("CARGO_BIN_EXE_listing"), "'"));
    std::fs::write(&path, format!("#!/bin/sh\n{body}\n")).unwrap();
    std::fs::set_permissions(&path, PermissionsExt::from_mode(0o755)).unwrap();
    path.to_str().unwrap().to_string()
}

fn no_difference() {
    // Twelve kinds, and seven bad inputs.
    let (status, last) = compare(env!("CARGO_BIN_EXE_listing"), "all");
    assert_eq!(status, Some(0), "{last}");
    assert!(last.starts_with("31 files, ") && last.ends_with(" commands, 0 differences"), "{last}");
}

fn differences() {
    let programs = [
        ("other_line", "LISTING | sed '50s/^/x/'"),
        ("line_less", "LISTING | sed '50d'"),
        ("line_more", "LISTING; echo x"),
        ("bad_end", "LISTING; exit 1"),
        ("complaint", "LISTING; echo x >&2"),
        ("reads_nothing", "true"),
    ];
    for (name, body) in programs {
        let found = compare(&script(name, body), "mixed");
        assert_eq!(found, (Some(1), "2 files, 100 commands, 2 differences".to_string()), "{name}");
    }
    let same = compare(&script("same", "LISTING"), "mixed");
    assert_eq!(same, (Some(0), "2 files, 100 commands, 0 differences".to_string()));
}

fn cannot_run() {
    assert_eq!(compare("no such program", "mixed").0, Some(2));
    assert_eq!(compare(env!("CARGO_BIN_EXE_listing"), "no such kind").0, Some(2));
}

/// One after the other: a script cannot run while a process started meanwhile
/// still has it open for writing.
#[test]
fn comparison() {
    no_difference();
    differences();
    cannot_run();
}
