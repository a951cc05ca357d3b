//! Our side: the built command, whose converter is the proved one.

use std::io::Write;
use std::path::PathBuf;
use std::process::{Command, Output, Stdio};

/// The command, by its path.
pub struct Ours(pub PathBuf);

/// What we say of a run.
pub enum Said {
    /// Its book.
    Converted(String),
    /// The place of refusal 24.
    Refused(usize),
}

impl Ours {
    /// Converts a run.
    pub fn convert(&self, run: &str) -> Said {
        let ended = self.call(&["convert", "-"], run.as_bytes());
        let said = String::from_utf8_lossy(&ended.stderr);
        match (ended.status.code(), refused_place(&said)) {
            (Some(0), _) => Said::Converted(text(ended.stdout)),
            (Some(1), Some(place)) => Said::Refused(place),
            _ => panic!("the command failed on a run: {said}"),
        }
    }

    /// Converts a whole document with these options: its book and what is left out,
    /// or why there is none.
    pub fn convert_ontology(
        &self,
        document: &[u8],
        options: &[&str],
    ) -> Result<(String, String), String> {
        let arguments = [&["convert", "--ontology", "-"], options].concat();
        let ended = self.call(&arguments, document);
        let said = text(ended.stderr);
        match ended.status.code() {
            Some(0) => Ok((text(ended.stdout), said)),
            Some(1) => Err(said),
            _ => panic!("the command failed on a document: {said}"),
        }
    }

    fn call(&self, arguments: &[&str], input: &[u8]) -> Output {
        let mut child = Command::new(&self.0)
            .args(arguments)
            .stdin(Stdio::piped())
            .stdout(Stdio::piped())
            .stderr(Stdio::piped())
            .spawn()
            .expect("the command starts");
        let mut stdin = child.stdin.take().expect("standard input is piped");
        stdin.write_all(input).expect("the command reads its input");
        drop(stdin);
        child.wait_with_output().expect("the command ends")
    }
}

fn text(bytes: Vec<u8>) -> String {
    String::from_utf8(bytes).expect("the command prints text")
}

/// The place in `refused 24 PLACE: ..`.
fn refused_place(said: &str) -> Option<usize> {
    let (place, _) = said.strip_prefix("refused 24 ")?.split_once(':')?;
    place.parse().ok()
}
