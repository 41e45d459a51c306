//! The C examples, compiled as C and as C++ with all warnings as errors, linked
//! with the two archives, and run. A C and a C++ compiler (`cc`, `c++`) are
//! needed: without them the tests fail.

use std::env;
use std::path::{Path, PathBuf};
use std::process::Command;

const PRINTED: &str = "\
check_rmaps: 0
check_refcounts: 0
insert: 0
insert: 23
  records: 2, shared counts: 0
take_held: 0
  records: 3, shared counts: 1
explain: 0
  block 43 is still held: owner 132 holds 10 blocks from 40
let_go: 0
  nothing is free
  records: 2, shared counts: 0
explain: 0
  block 43 is free now
explain: 31
let_go: 0
  free: 10 blocks from 40
  records: 1, shared counts: 0
plan: 0
build: 0
check_block: 0
check_block of another number: 8
  expected address 6, found 5
check_block with an older log: 30
walk_linked: 0
  record: 4 blocks from 0
walk_textbook: 0
lookup: 0
  records over block 3: 1
  records over block 4: 0
  records over block 40: 0
";

const SHEET_PRINTED: &str = "\
write_sheet: 0
read_sheet: 0
  changes: 4
read_sheet of a damaged one: 32
write_sheet of no change: 33
";

const WARNINGS: [&str; 4] = ["-Wall", "-Wextra", "-pedantic", "-Werror"];

fn package() -> &'static Path {
    Path::new(env!("CARGO_MANIFEST_DIR"))
}

/// Where build.rs takes the archives from.
fn archives() -> [PathBuf; 2] {
    let dir = match env::var_os("KF_LIB_DIR") {
        Some(dir) => PathBuf::from(dir),
        None => package().join("../target/staticlib"),
    };
    ["libtree_calls.a", "liblist_calls.a"].map(|name| dir.join(name))
}

fn compile(compiler: &str, language: &[&str], example: &str, to: &Path) {
    let output = Command::new(compiler)
        .args(language)
        .args(WARNINGS)
        .arg("-I")
        .arg(package())
        .arg(package().join("examples").join(example))
        // The archives are no source.
        .args(["-x", "none"])
        .args(archives())
        .arg("-o")
        .arg(to)
        .output()
        .unwrap_or_else(|e| panic!("no C compiler: `{compiler}` does not start: {e}"));
    assert!(
        output.status.success(),
        "{compiler} {} refuses the C example: {}\n{}",
        language.join(" "),
        output.status,
        String::from_utf8_lossy(&output.stderr)
    );
    assert!(
        output.stderr.is_empty(),
        "{}",
        String::from_utf8_lossy(&output.stderr)
    );
}

fn compiled_and_run(
    compiler: &str,
    language: &[&str],
    example: &str,
    name: &str,
    printed: &str,
) {
    let program = Path::new(env!("CARGO_TARGET_TMPDIR")).join(name);
    compile(compiler, language, example, &program);
    let output = Command::new(&program)
        .output()
        .unwrap_or_else(|e| panic!("the compiled example does not start: {e}"));
    assert!(
        output.status.success(),
        "the example ended with {}\n{}",
        output.status,
        String::from_utf8_lossy(&output.stderr)
    );
    assert_eq!(String::from_utf8_lossy(&output.stdout), printed);
}

fn let_go(compiler: &str, language: &[&str], name: &str) {
    compiled_and_run(compiler, language, "let_go.c", name, PRINTED);
}

fn sheet(compiler: &str, language: &[&str], name: &str) {
    compiled_and_run(compiler, language, "sheet.c", name, SHEET_PRINTED);
}

#[test]
fn the_example_as_c() {
    let_go("cc", &["-std=c99"], "let_go_c99");
    let_go("cc", &["-std=c17"], "let_go_c17");
}

#[test]
fn the_example_as_cpp() {
    let_go("c++", &["-x", "c++", "-std=c++11"], "let_go_cpp11");
    let_go("c++", &["-x", "c++", "-std=c++20"], "let_go_cpp20");
}

#[test]
fn the_sheet_as_c() {
    sheet("cc", &["-std=c99"], "sheet_c99");
    sheet("cc", &["-std=c17"], "sheet_c17");
}

#[test]
fn the_sheet_as_cpp() {
    sheet("c++", &["-x", "c++", "-std=c++11"], "sheet_cpp11");
    sheet("c++", &["-x", "c++", "-std=c++20"], "sheet_cpp20");
}
