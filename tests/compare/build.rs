//! Links libicu.a, and libdecay_call.a if it is asked for, from the folder named by ICU_LIB_DIR, else from target/staticlib.

use std::env;
use std::path::PathBuf;

/// The features that ask for a library, and its name.
const LIBRARIES: [(&str, &str); 2] = [
    ("CARGO_FEATURE_FILL", "icu"),
    ("CARGO_FEATURE_DECAY", "decay_call"),
];

fn main() {
    println!("cargo:rerun-if-env-changed=ICU_LIB_DIR");
    let here = PathBuf::from(env::var_os("CARGO_MANIFEST_DIR").unwrap_or_default());
    let folder = env::var_os("ICU_LIB_DIR")
        .map_or_else(|| here.join("../../target/staticlib"), PathBuf::from);
    println!("cargo:rustc-link-search=native={}", folder.display());
    let asked = |(feature, _): &&(&str, &str)| env::var_os(feature).is_some();
    for (_, name) in LIBRARIES.iter().filter(asked) {
        let file = folder.join(format!("lib{name}.a"));
        println!("cargo:rerun-if-changed={}", file.display());
        println!("cargo:rustc-link-lib=static:-bundle={name}");
    }
}
