//! Says where the proved libraries lie.

use std::env;

/// The static libraries, which `./archives` makes: the public calls, and the calls over an accepted image.
const LIBRARIES: [&str; 2] = ["range_filter", "range_filter_accepted"];

/// Links the static libraries below the repository root.
fn main() {
    let package = env::var("CARGO_MANIFEST_DIR").expect("cargo names the package's folder");
    let folder = format!("{package}/../target/staticlib");
    println!("cargo:rustc-link-search=native={folder}");
    for library in LIBRARIES {
        println!("cargo:rerun-if-changed={folder}/lib{library}.a");
        println!("cargo:rustc-link-lib=static={library}");
    }
}
