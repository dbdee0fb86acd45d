//! Finds the static library: in the folder that SIMMERPATCH_LIB_DIR names, else where `make lib` puts it.

use std::path::PathBuf;
use std::{env, process};

const NAMED: &str = "SIMMERPATCH_LIB_DIR";
const MADE: &str = "../../target/staticlib";

fn main() {
    println!("cargo:rerun-if-env-changed={NAMED}");
    let package =
        PathBuf::from(env::var_os("CARGO_MANIFEST_DIR").expect("cargo names the package's folder"));
    let named = env::var_os(NAMED).filter(|folder| !folder.is_empty());
    // A folder that is not named from the root on is taken from the package's folder.
    let folder = package.join(named.unwrap_or(MADE.into()));
    let library = folder.join("libsimmerpatch.a");
    println!("cargo:rerun-if-changed={}", library.display());
    if !library.is_file() {
        eprintln!("simmerpatch: there is no {}", library.display());
        eprintln!("Run `make lib` at the root of the repository, or name the library's folder in {NAMED}.");
        process::exit(1);
    }
    println!("cargo:rustc-link-search=native={}", folder.display());
    println!("cargo:rustc-link-lib=static=simmerpatch");
}
