//! The header is C and C++, and what it declares is in the library.

use std::path::{Path, PathBuf};
use std::process::Command;

const ANSWERS: &str = "\
1 0 0 0 0 0 0 0 0 table 0 8200
3 0 0 0 0 0 0 0 0 table 8192 8
5 16 0 0 0 0 0 0 0 table 8192 8
0 0 5 16909060 219 27 2 1 1 table 8163 8
1953460082 0 0 4294967295 40 40 0 2
1818521453 0 0 0 64 64 0 2
1752393069 9 0 1 88 166 3 0
1819566445 7 8 1 190 235 4 0
1852268919 1 2 0 259 262 3 4
0 0 262 output 262 8
0 0 262 output 262 8
26 0 0 output 0 270
22 4 0 output 0 270
20 0 0 output 0 270
24 0 0 output 0 270
24 0 0 output 0 270
20 0 0 output 0 270
0 0 16 output 8 254
26 0 0 output 0 270
1 0 0 table 0 8200 output 0 270
5 16 0 table 8192 8 output 0 270
3 0 0 table 8192 8 output 0 270
30 0 0 table 8192 8 output 0 270
30 0 0 table 8192 8 output 0 270
31 0 0 table 8192 8 output 0 270
32 0 0 table 8192 8 output 0 270
0 0 235 table 8170 8 output 20 35
0 0 235 table 8170 8 output 20 35
1953460082 0 0 4294967295 40 40 0 1
1818521453 0 0 0 64 64 0 2
1752393069 9 0 1 88 166 3 0
1819566445 7 8 1 190 235 4 0
0 0 0 0 0 0 0 0
219 1 2
0 0 10 13
40 0 0 0
40 0 0 0
41 0 0 0
41 0 0 0
42 0 0 0
43 0 0 0
43 0 0 0
";

fn project(path: &str) -> PathBuf {
    Path::new(env!("CARGO_MANIFEST_DIR"))
        .join("../..")
        .join(path)
}

/// Runs a command that must succeed, and answers what it prints.
fn run(command: &mut Command) -> String {
    let output = command.output().expect("the command starts");
    let said = String::from_utf8_lossy(&output.stderr);
    assert!(output.status.success(), "{command:?}: {said}");
    String::from_utf8(output.stdout).expect("plain text")
}

fn compiler() -> Command {
    let mut command = Command::new("cc");
    command.args(["-Wall", "-Wextra", "-Wpedantic", "-Werror", "-I"]);
    command.arg(project("include"));
    command
}

#[test]
fn a_c_program_gets_the_answers() {
    let program = Path::new(env!("CARGO_TARGET_TMPDIR")).join("header");
    let source = Path::new(env!("CARGO_MANIFEST_DIR")).join("tests/header.c");
    let library = project("target/staticlib/libcast.a");
    run(compiler()
        .arg("-std=c11")
        .arg(source)
        .arg(library)
        .arg("-o")
        .arg(&program));
    assert_eq!(run(&mut Command::new(program)), ANSWERS);
}

#[test]
fn the_header_stands_alone_in_c_and_cpp() {
    for language in ["c", "c++"] {
        let header = project("include/cast.h");
        run(compiler()
            .args(["-fsyntax-only", "-x", language])
            .arg(header));
    }
}

/// The library needs one name from outside, which a program without a C library can give it.
#[test]
fn needs_memset_alone() {
    let library = project("target/staticlib/libcast.a");
    let told = run(Command::new("nm").arg("-u").arg(library));
    let needed: Vec<&str> = told
        .lines()
        .filter_map(|line| line.trim().strip_prefix("U "))
        .collect();
    assert_eq!(needed, ["memset"]);
}
