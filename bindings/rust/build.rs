//! Finds the static library: where FANCY_REGEX_LIBRARY says, the full path of a file libfancy_regex_ffi.a, or where the repository
//! builds it. Says what to run where it is not there.

use std::env;
use std::path::PathBuf;
use std::process;

fn main() {
    println!("cargo:rerun-if-env-changed=FANCY_REGEX_LIBRARY");
    println!("cargo:rerun-if-env-changed=DOCS_RS");
    let named = env::var_os("FANCY_REGEX_LIBRARY").map(PathBuf::from);
    let library = named.clone().unwrap_or_else(built_here);
    println!("cargo:rerun-if-changed={}", library.display());
    // Documentation needs no library, and where it is made for the registry there is none.
    if env::var_os("DOCS_RS").is_some() {
        return;
    }
    if !library.is_file() || library.file_name() != Some("libfancy_regex_ffi.a".as_ref()) {
        eprintln!(
            "{}",
            advice(&library.display().to_string(), named.is_some())
        );
        process::exit(1);
    }
    if let Some(folder) = library.parent() {
        println!("cargo:rustc-link-search=native={}", folder.display());
    }
    println!("cargo:rustc-link-lib=static=fancy_regex_ffi");
}

fn built_here() -> PathBuf {
    let here = PathBuf::from(env::var_os("CARGO_MANIFEST_DIR").unwrap_or_default());
    here.join("../../crates/fancy_regex_ffi/out/libfancy_regex_ffi.a")
}

/// What to run where the library is not there.
fn advice(library: &str, is_named: bool) -> String {
    if is_named {
        return format!(
            "FANCY_REGEX_LIBRARY names {library}, which is not there or has another name:\n\
             it has to be the full path of a file libfancy_regex_ffi.a"
        );
    }
    format!(
        "the proved library is not built: there is no {library}\n\
         build it with `./build library` at the top of the repository, which takes half an hour or more,\n\
         or set FANCY_REGEX_LIBRARY to the full path of a file libfancy_regex_ffi.a"
    )
}
