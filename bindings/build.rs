//! Says where the two archives of the library are: in the folder that
//! KF_LIB_DIR names (where it is not absolute, from this folder), else where
//! `tools/staticlib` puts them.

use std::env;
use std::path::PathBuf;
use std::process::exit;

fn main() {
    println!("cargo:rerun-if-env-changed=KF_LIB_DIR");
    let target = |what: &str| env::var(format!("CARGO_CFG_TARGET_{what}")).unwrap_or_default();
    if target("ARCH") != "x86_64" || target("FAMILY") != "unix" {
        eprintln!("The static library is compiled for x86-64 with the calling convention of");
        eprintln!("System V; there is none for another target.");
        exit(1);
    }
    let here = PathBuf::from(env::var_os("CARGO_MANIFEST_DIR").expect("cargo sets it"));
    let dir = match env::var_os("KF_LIB_DIR") {
        Some(d) => here.join(d),
        None => here.join("../target/staticlib"),
    };
    println!("cargo:rustc-link-search=native={}", dir.display());
    let mut missing = false;
    for name in ["tree_calls", "list_calls"] {
        let archive = dir.join(format!("lib{name}.a"));
        println!("cargo:rerun-if-changed={}", archive.display());
        println!("cargo:rustc-link-lib=static:-bundle={name}");
        if !archive.is_file() {
            eprintln!("The static library {} is not there.", archive.display());
            missing = true;
        }
    }
    if missing {
        eprintln!();
        eprintln!("This crate calls a library that the Rattle kit proves and compiles. In the");
        eprintln!("repository's folder, the one above `bindings`, run");
        eprintln!();
        eprintln!("    tools/staticlib");
        eprintln!();
        eprintln!("which writes both archives to target/staticlib. Where they are in another");
        eprintln!("folder, let the environment variable KF_LIB_DIR name it.");
        exit(1);
    }
}
