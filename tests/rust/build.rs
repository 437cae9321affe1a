//! With the features `linked` and `before`: where the static libraries stand.

use std::env;

fn main() {
    link("LINKED", "TIDY_LIB_DIR", "tidy");
    link("BEFORE", "TIDY_BEFORE_DIR", "tidy_before");
}

/// Links lib`library`.a of the folder that `variable` names, where the feature is on.
fn link(feature: &str, variable: &str, library: &str) {
    println!("cargo:rerun-if-env-changed={variable}");
    if env::var_os(format!("CARGO_FEATURE_{feature}")).is_none() {
        return;
    }
    let folder =
        env::var(variable).unwrap_or_else(|_| panic!("{variable} names the folder of lib{library}.a"));
    println!("cargo:rerun-if-changed={folder}/lib{library}.a");
    println!("cargo:rustc-link-search=native={folder}");
    println!("cargo:rustc-link-lib=static={library}");
}
