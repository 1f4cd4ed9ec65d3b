//! Links the static archive that `rt lib` writes in crates/etru_c.

use std::env;
use std::path::PathBuf;
use std::process::ExitCode;

fn main() -> ExitCode {
    println!("cargo:rerun-if-env-changed=ETRU_LIBRARY_DIR");
    let package = PathBuf::from(env::var_os("CARGO_MANIFEST_DIR").unwrap_or_default());
    let directory = match env::var_os("ETRU_LIBRARY_DIR") {
        Some(directory) => package.join(directory),
        None => package.join("../../crates/etru_c/out"),
    };
    let archive = directory.join("libetru_c.a");
    println!("cargo:rerun-if-changed={}", archive.display());
    if !archive.is_file() {
        eprintln!(
            "{} is not there: run `rt lib` in crates/etru_c first,",
            archive.display()
        );
        eprintln!("or set ETRU_LIBRARY_DIR to the folder of libetru_c.a.");
        return ExitCode::FAILURE;
    }
    println!("cargo:rustc-link-search=native={}", directory.display());
    println!("cargo:rustc-link-lib=static=etru_c");
    ExitCode::SUCCESS
}
