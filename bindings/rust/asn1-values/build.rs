//! Links the static library from the folder that `ASN1_VALUES_LIBRARY` names, otherwise from the repository's
//! `crates/asn1_c/out`; if it does not exist there, `rt lib` proves and builds it.

use std::env;
use std::path::{Path, PathBuf};
use std::process::{Command, ExitStatus};

/// The library's file.
const LIBRARY: &str = "libasn1_c.a";

/// Runs `rt lib` in the folder of the library's source. It takes an hour of processor the first time.
fn build(source: &Path) -> Result<(), String> {
    let ran = Command::new("rt").arg("lib").current_dir(source).status();
    match ran.as_ref().map(ExitStatus::success) {
        Ok(true) => Ok(()),
        Ok(false) => Err("`rt lib` failed".into()),
        Err(error) => Err(format!(
            "the command `rt` of the Rattle kit does not run ({error})"
        )),
    }
}

/// Returns the folder of the library.
fn folder() -> Result<PathBuf, String> {
    if let Some(named) = env::var_os("ASN1_VALUES_LIBRARY") {
        let named = PathBuf::from(named);
        if named.join(LIBRARY).exists() {
            return Ok(named);
        }
        let named = named.display();
        return Err(format!(
            "ASN1_VALUES_LIBRARY names {named}, where there is no {LIBRARY}"
        ));
    }
    let source = Path::new(env!("CARGO_MANIFEST_DIR")).join("../../../crates/asn1_c");
    let out = source.join("out");
    if out.join(LIBRARY).exists() {
        return Ok(out);
    }
    if !source.is_dir() {
        return Err("this copy of the crate is outside of its repository".into());
    }
    build(&source).map(|()| out)
}

fn main() {
    println!("cargo:rerun-if-env-changed=ASN1_VALUES_LIBRARY");
    if env::var_os("DOCS_RS").is_some() {
        return;
    }
    let folder = folder().unwrap_or_else(|why| {
        panic!("{why}: set ASN1_VALUES_LIBRARY to the folder of {LIBRARY}, which `scripts/install-c` of the repository makes")
    });
    println!("cargo:rerun-if-changed={}", folder.join(LIBRARY).display());
    println!("cargo:rustc-link-search=native={}", folder.display());
    println!("cargo:rustc-link-lib=static=asn1_c");
}
