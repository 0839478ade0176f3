//! Links the proved library, or says how to make it.

use std::env;
use std::path::{Path, PathBuf};
use std::process::ExitCode;

/// The libraries of the archives: the public calls, and the calls over an accepted image.
const LIBRARIES: [&str; 2] = ["range_filter", "range_filter_accepted"];
/// The environment variable that names another folder for them.
const FOLDER_VARIABLE: &str = "RANGE_FILTER_LIB_DIR";

/// Tells cargo which archives to link; stops with a sentence where there are none that fit.
fn main() -> ExitCode {
    let folder = folder();
    println!("cargo:rerun-if-env-changed={FOLDER_VARIABLE}");
    println!("cargo:rustc-link-search=native={}", folder.display());
    for library in LIBRARIES {
        let archive = folder.join(format!("lib{library}.a"));
        println!("cargo:rerun-if-changed={}", archive.display());
        println!("cargo:rustc-link-lib=static={library}");
        if let Some(problem) = problem(&archive) {
            eprintln!("{problem}");
            return ExitCode::FAILURE;
        }
    }
    ExitCode::SUCCESS
}

/// Gives the folder of the archives: the one that the environment names, or `target/staticlib`
/// at the root of the repository.
fn folder() -> PathBuf {
    let named = env::var_os(FOLDER_VARIABLE).map(PathBuf::from);
    named.unwrap_or_else(|| {
        let package = env::var_os("CARGO_MANIFEST_DIR").map(PathBuf::from);
        let target = package.unwrap_or_default().with_file_name("target");
        target.join("staticlib")
    })
}

/// Says why the archive cannot be linked and what to do, if so.
fn problem(archive: &Path) -> Option<String> {
    let variable = |name| env::var(name).unwrap_or_default();
    let arch = variable("CARGO_CFG_TARGET_ARCH");
    let os = variable("CARGO_CFG_TARGET_OS");
    if arch != "x86_64" || os != "linux" {
        return Some(format!(
            "The archives are for x86-64 Linux, and this build is for {arch} {os}: \
             build for an x86_64 Linux target."
        ));
    }
    let missing = !archive.is_file();
    missing.then(|| {
        format!(
            "There is no {archive}.\n\
             Run `./archives` at the root of the repository: it proves the library, \
             which takes minutes, and writes its two archives.\n\
             Or let the environment variable {FOLDER_VARIABLE} name a folder that has both.",
            archive = archive.display()
        )
    })
}
