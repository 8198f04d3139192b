//! The program, run as a child process on one sheet after the other.

use std::io::{self, Read, Write};
use std::path::PathBuf;
use std::process::{Command, Stdio};
use std::thread;

pub struct Program {
    pub file: PathBuf,
}

impl Program {
    /// What the program prints for the sheet. Ending with another status than 0, or a word on
    /// standard error, is an error.
    pub fn answer(&self, text: &[u8]) -> io::Result<Vec<u8>> {
        let mut child = Command::new(&self.file)
            .stdin(Stdio::piped())
            .stdout(Stdio::piped())
            .stderr(Stdio::piped())
            .spawn()?;
        let mut input = child.stdin.take().expect("a pipe");
        let text = text.to_vec();
        // A sheet may exceed the pipe, and a program may stop reading one that is too long: so
        // the sheet is written beside the wait, and a closed pipe is no fault.
        let writer = thread::spawn(move || {
            let _ = input.write_all(&text);
        });
        let mut printed = Vec::new();
        let mut errors = Vec::new();
        child.stdout.take().expect("a pipe").read_to_end(&mut printed)?;
        child.stderr.take().expect("a pipe").read_to_end(&mut errors)?;
        let status = child.wait()?;
        writer.join().expect("the writer doesn't panic");
        if !status.success() || !errors.is_empty() {
            let said = String::from_utf8_lossy(&errors).into_owned();
            return Err(io::Error::other(format!("{status}; standard error: {said:?}")));
        }
        Ok(printed)
    }
}
