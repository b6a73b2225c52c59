//! Links libabi.a, from the folder that TINGMUDRA_LIB names or from where it is made for the target.

use std::env::{var, var_os};
use std::path::PathBuf;

/// The archive's folder in the repository, and the command that makes it there: one for user space, one for targets
/// without an operating system.
fn made(system: &str, machine: &str) -> (String, String) {
    match (system, machine) {
        ("none", _) => (format!("target/kernel/{machine}"), format!("bindings/kernel {machine}")),
        (_, "x86_64") => ("target/staticlib".into(), "bindings/module abi_c target/staticlib/libabi.a".into()),
        _ => (format!("target/{machine}"), format!("bindings/module --for {machine} abi_c target/{machine}/libabi.a")),
    }
}

fn main() {
    let target = |what: &str| var(format!("CARGO_CFG_TARGET_{what}")).unwrap_or_default();
    let (place, command) = made(&target("OS"), &target("ARCH"));
    let folder = match var_os("TINGMUDRA_LIB") {
        Some(folder) => PathBuf::from(folder),
        None => PathBuf::from(env!("CARGO_MANIFEST_DIR")).join("../..").join(place),
    };
    let archive = folder.join("libabi.a");
    assert!(archive.is_file(), "no {}: run `{command}`, or set TINGMUDRA_LIB", archive.display());
    println!("cargo:rerun-if-env-changed=TINGMUDRA_LIB");
    println!("cargo:rerun-if-changed={}", archive.display());
    println!("cargo:rustc-link-search=native={}", folder.display());
    println!("cargo:rustc-link-lib=static=abi");
}
