//! Calls of the built program.

use std::io::Write;
use std::process::{Command, Stdio};

/// The folder of the stored books, where the program is called.
pub const DATA: &str = concat!(env!("CARGO_MANIFEST_DIR"), "/../data");

/// The book of the scope's printed sitting.
pub const P1: &str = include_str!("../../../data/p1.book");

/// Its rules, as axioms.
pub const P1_AXIOMS: &str = include_str!("../../../data/p1.axioms");

/// How a call ended.
#[derive(Debug, PartialEq, Eq)]
pub struct Ended {
    pub status: i32,
    /// Standard output.
    pub printed: String,
    /// Standard error.
    pub said: String,
}

/// Calls the program in the folder of the stored books, with this standard input.
pub fn call(arguments: &[&str], input: impl AsRef<[u8]>) -> Ended {
    let mut child = Command::new(env!("CARGO_BIN_EXE_shelf-cli"))
        .args(arguments)
        .current_dir(DATA)
        .stdin(Stdio::piped())
        .stdout(Stdio::piped())
        .stderr(Stdio::piped())
        .spawn()
        .expect("the program starts");
    let mut stdin = child.stdin.take().expect("standard input is piped");
    let written = stdin.write_all(input.as_ref());
    written.expect("the program reads its input");
    drop(stdin);
    let output = child.wait_with_output().expect("the program ends");
    Ended {
        status: output.status.code().expect("it ends by itself"),
        printed: String::from_utf8(output.stdout).expect("it prints text"),
        said: String::from_utf8(output.stderr).expect("it says text"),
    }
}

/// The call is done, and prints this.
#[track_caller]
pub fn done(ended: Ended, printed: &str) {
    let expected = Ended {
        status: 0,
        printed: printed.to_owned(),
        said: String::new(),
    };
    assert_eq!(ended, expected);
}

/// The call ends with this status, prints nothing and says something, which is
/// given.
#[track_caller]
pub fn failed(ended: Ended, status: i32) -> String {
    assert_eq!((ended.status, ended.printed.as_str()), (status, ""));
    assert!(ended.said.ends_with('\n'), "{}", ended.said);
    ended.said
}
