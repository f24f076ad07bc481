//! A program of the project, run as a process.
use std::io::Write;
use std::path::{Path, PathBuf};
use std::process::{Command, Stdio};
use std::thread;

/// A program of the project, as its script `run` starts it.
pub struct Program {
    run: PathBuf,
    pub name: &'static str,
}

impl Program {
    pub fn new(root: &Path, name: &'static str) -> Program {
        Program { run: root.join("run"), name }
    }

    /// What it writes on an input, in ASCII.
    pub fn output(&self, input: &[u8]) -> String {
        String::from_utf8(self.bytes(input)).expect("programs write ASCII")
    }

    /// The same with arguments.
    pub fn output_of(&self, words: &[&str], input: &[u8]) -> String {
        String::from_utf8(self.bytes_of(words, input)).expect("programs write ASCII")
    }

    /// In bytes.
    pub fn bytes(&self, input: &[u8]) -> Vec<u8> {
        self.bytes_of(&[], input)
    }

    pub fn bytes_of(&self, words: &[&str], input: &[u8]) -> Vec<u8> {
        let mut started = Command::new(&self.run)
            .arg(self.name)
            .args(words)
            .env("PETRIZOLU_BUILT", "1")
            .stdin(Stdio::piped())
            .stdout(Stdio::piped())
            .spawn()
            .expect("the script run can be started");
        let mut stdin = started.stdin.take().expect("piped above");
        let input = input.to_vec();
        let writer = thread::spawn(move || stdin.write_all(&input));
        let output = started.wait_with_output().expect("its output can be read");
        // One that says how it is used reads nothing.
        let written = writer.join().expect("the writer does not panic");
        assert!(written.is_ok() || !words.is_empty(), "it reads its whole input");
        assert!(output.status.success(), "the program {} failed", self.name);
        output.stdout
    }
}
