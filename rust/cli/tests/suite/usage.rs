//! How the program is called: help, calls that it doesn't have, and files that
//! can't be read.

use crate::common::{call, failed};

#[test]
fn help() {
    let ended = call(&["--help"], "");
    assert_eq!((ended.status, ended.said.as_str()), (0, ""));
    for part in [
        "shelf-cli run [--owl] BOOK\n",
        "\n      --owl\n          BOOK has axioms",
        "shelf-cli layers [--owl] BOOK\n",
        "shelf-cli mark BOOK SHEETS\n",
        "shelf-cli convert [--ontology] [--skip-others] [--prefix NAME] [--base IRI] AXIOMS\n",
        "\n      --prefix NAME\n          With --ontology: ",
        "exit status",
    ] {
        assert!(ended.printed.contains(part), "{}", ended.printed);
    }
    for arguments in [&["-h"][..], &["run", "--help"], &["mark", "p1.book", "-h"]] {
        assert_eq!(call(arguments, ""), ended);
    }
}

/// Anything else is status 2, and the commands are listed.
#[test]
fn calls_that_there_are_not() {
    let vectors: [(&[&str], &str); 23] = [
        (&[], "a command is missing"),
        (&["ran", "p1.book"], "there is no command ran"),
        (&["p1.book"], "there is no command p1.book"),
        (&["-"], "there is no command -"),
        (&["run"], "run takes BOOK"),
        (&["run", "p1.book", "p1.book"], "run takes BOOK"),
        (&["mark", "p1.book"], "mark takes BOOK and SHEETS"),
        (&["mark", "p1.book", "-", "-"], "mark takes BOOK and SHEETS"),
        (&["mark", "-", "-"], "standard input can be read only once"),
        (&["run", "--owl"], "run takes BOOK"),
        (&["layers"], "layers takes BOOK"),
        (&["layers", "--fast", "-"], "layers has no option --fast"),
        (&["convert", "p1.axioms", "-"], "convert takes AXIOMS"),
        (&["run", "--fast"], "run has no option --fast"),
        (&["run", "p1.book", "--fast"], "run has no option --fast"),
        (&["run", "--owl=", "p1.book"], "run has no option --owl="),
        (
            &["mark", "--owl", "p1.book", "-"],
            "mark has no option --owl",
        ),
        (
            &["convert", "--owl", "p1.axioms"],
            "convert has no option --owl",
        ),
        (
            &["convert", "p1.ofn", "--skip-others"],
            "--skip-others needs --ontology",
        ),
        (&["convert", "--base", "x", "-"], "--base needs --ontology"),
        (
            &["convert", "--ontology", "-", "--prefix"],
            "--prefix takes NAME",
        ),
        (
            &["convert", "--ontology", "--prefix", "p1.ofn"],
            "convert takes AXIOMS",
        ),
        (
            &["convert", "--ontology", "--prefix", "x", "--base", "y", "-"],
            "give --prefix or --base, not both",
        ),
    ];
    for (arguments, why) in vectors {
        let said = failed(call(arguments, ""), 2);
        let start = format!("shelf-cli: {why}\n");
        assert!(said.starts_with(&start), "{said}");
        assert!(said.contains("\n  shelf-cli run [--owl] BOOK\n"), "{said}");
    }
}

/// A file that can't be read is named, and the status is 1.
#[test]
fn files_that_cannot_be_read() {
    let missing = "no-such.book";
    for arguments in [
        &["run", missing][..],
        &["run", "--owl", missing],
        &["layers", missing],
        &["mark", "p1.book", missing],
        &["convert", missing],
        &["convert", "--ontology", missing],
    ] {
        let said = failed(call(arguments, ""), 1);
        let start = "shelf-cli: no-such.book can't be read: ";
        assert!(said.starts_with(start), "{said}");
    }
    let said = failed(call(&["run", "."], ""), 1);
    assert!(said.starts_with("shelf-cli: . can't be read: "), "{said}");
}

/// What can't be printed is not lost in silence.
#[test]
#[cfg(target_os = "linux")]
fn output_that_is_not_taken() {
    let full = std::fs::OpenOptions::new().write(true).open("/dev/full");
    let output = std::process::Command::new(env!("CARGO_BIN_EXE_shelf-cli"))
        .arg("--help")
        .stdout(full.expect("there is a device that is always full"))
        .output()
        .expect("the program ends");
    assert_eq!(output.status.code(), Some(1));
    let said = String::from_utf8(output.stderr).expect("it says text");
    assert!(
        said.starts_with("shelf-cli: nothing more is printed: "),
        "{said}"
    );
}
