//! What the build script says where it cannot link the library.

use std::fs;
use std::path::{Path, PathBuf};
use std::process::Command;

/// Gives an empty folder for a test.
fn empty_folder(name: &str) -> PathBuf {
    let folder = Path::new(env!("CARGO_TARGET_TMPDIR")).join(name);
    fs::create_dir_all(&folder).expect("the folder can be made");
    folder
}

/// Builds the package in a target folder of its own and with an archive from some folder, and
/// gives the standard error of the build, which has to fail.
fn failing_build(name: &str, archives: &Path, arguments: &[&str]) -> String {
    let build = Command::new(env!("CARGO"))
        .args(["build", "--lib", "--offline", "--manifest-path"])
        .arg(Path::new(env!("CARGO_MANIFEST_DIR")).join("Cargo.toml"))
        .arg("--target-dir")
        .arg(empty_folder(name).join("target"))
        .args(arguments)
        .env("RANGE_FILTER_LIB_DIR", archives)
        .output()
        .expect("cargo runs");
    assert!(!build.status.success());
    String::from_utf8(build.stderr).expect("cargo writes text")
}

#[test]
fn a_missing_archive_is_named_with_the_command_that_makes_it() {
    let archives = empty_folder("no_archive");
    let said = failing_build("missing", &archives, &[]);
    let archive = archives.join("librange_filter.a");
    assert!(said.contains(&format!("There is no {}.", archive.display())));
    assert!(said.contains("Run `./archives` at the root of the repository"));
    assert!(said.contains("it proves the library, which takes minutes"));
    assert!(!said.contains("panicked"));
}

#[test]
fn another_target_is_told_what_the_archives_are_for() {
    let archives = empty_folder("no_archive");
    let said = failing_build(
        "target",
        &archives,
        &["--target", "aarch64-unknown-linux-gnu"],
    );
    assert!(said.contains("are for x86-64 Linux, and this build is for aarch64 linux"));
    assert!(!said.contains("panicked"));
}
