//! Without the archives nothing is built, and what is said helps.

use std::env;
use std::fs;
use std::path::Path;
use std::process::Command;

#[test]
fn missing_archives_are_told_in_words() {
    let dir = Path::new(env!("CARGO_TARGET_TMPDIR"));
    let empty = dir.join("no_archives");
    fs::create_dir_all(&empty).expect("a folder");
    let cargo = env::var_os("CARGO").expect("cargo runs the tests");
    let output = Command::new(cargo)
        .args(["check", "--offline", "--lib", "--manifest-path"])
        .arg(concat!(env!("CARGO_MANIFEST_DIR"), "/Cargo.toml"))
        .arg("--target-dir")
        .arg(dir.join("missing"))
        .env("KF_LIB_DIR", &empty)
        .output()
        .expect("cargo starts");
    assert!(!output.status.success());
    let said = String::from_utf8_lossy(&output.stderr);
    for words in [
        "libtree_calls.a is not there",
        "liblist_calls.a is not there",
        "tools/staticlib",
        "KF_LIB_DIR",
    ] {
        assert!(said.contains(words), "`{words}` is not in:\n{said}");
    }
}
