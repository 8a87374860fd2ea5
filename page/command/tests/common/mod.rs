//! The program as the tests run it, and what it came to.

use std::ffi::OsStr;
use std::fs;
use std::path::{Path, PathBuf};
use std::process::{Command, Output, Stdio};

pub const ACCEPTED: i32 = 0;
pub const OFFENCES: i32 = 1;
pub const NO_IMAGE: i32 = 2;
pub const TROUBLE: i32 = 3;

/// A contract with one fault, 50.
pub const FAULTY: &str = "contract Ward {\n    state { limit: u64; }\n    invariant issued <= limit;\n}\n";

pub fn program() -> Command {
    let mut program = Command::new(env!("CARGO_BIN_EXE_isonkaypu"));
    program.env_remove("NO_COLOR");
    program
}

pub struct Ran {
    pub status: Option<i32>,
    pub out: String,
    pub err: String,
}

pub fn ran(output: Output) -> Ran {
    let text = |bytes: Vec<u8>| String::from_utf8(bytes).expect("text");
    Ran { status: output.status.code(), out: text(output.stdout), err: text(output.stderr) }
}

pub fn run<T: AsRef<OsStr>>(arguments: &[T]) -> Ran {
    ran(program().args(arguments).stdin(Stdio::null()).output().expect("the program runs"))
}

pub fn with_input(arguments: &[&str], input: Stdio) -> Ran {
    ran(program().args(arguments).stdin(input).output().expect("the program runs"))
}

pub fn sample(name: &str) -> String {
    format!("{}/../../samples/{name}", env!("CARGO_MANIFEST_DIR"))
}

/// A file of these bytes, for one test.
pub fn file(name: &str, bytes: &[u8]) -> PathBuf {
    let path = Path::new(env!("CARGO_TARGET_TMPDIR")).join(name);
    fs::write(&path, bytes).expect("a file for the test");
    path
}

pub fn path(path: &Path) -> &str {
    path.to_str().expect("a plain path")
}

/// Ends with 3, says why on standard error, and nothing on standard output.
pub fn is_trouble(ran: &Ran, why: &str) {
    assert_eq!((ran.status, ran.out.as_str()), (Some(TROUBLE), ""), "{}", ran.err);
    assert!(ran.err.starts_with("isonkaypu: ") && ran.err.contains(why), "{}", ran.err);
    assert!(!ran.err.contains("panicked"), "{}", ran.err);
}
