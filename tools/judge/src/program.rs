//! Runs a program that judges a text on standard input.

use std::io::{self, Write};
use std::path::{Path, PathBuf};
use std::process::{Command, Stdio};

/// What the program wrote to standard output, and its exit status if it has one.
pub struct Answer {
    pub output: Vec<u8>,
    pub status: Option<i32>,
}

/// A program to run, one process for each text.
pub struct Program {
    path: PathBuf,
}

impl Program {
    pub fn new(path: &Path) -> Program {
        Program { path: path.to_path_buf() }
    }

    pub fn judge(&self, text: &[u8]) -> io::Result<Answer> {
        let mut command = Command::new(&self.path);
        let mut child = command.stdin(Stdio::piped()).stdout(Stdio::piped()).stderr(Stdio::null()).spawn()?;
        if let Some(mut input) = child.stdin.take() {
            // A program may stop reading when it knows its verdict.
            match input.write_all(text) {
                Err(error) if error.kind() != io::ErrorKind::BrokenPipe => return Err(error),
                _ => (),
            }
        }
        let output = child.wait_with_output()?;
        Ok(Answer { output: output.stdout, status: output.status.code() })
    }
}
