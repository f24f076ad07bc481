//! Scripts that were written by hand: scripts/, and differences/ with one for each named difference.
use crate::pairs::Side;
use player::command::Command;
use player::script;
use std::path::{Path, PathBuf};

/// A script of a file, and the answers that it says: of which command, and the words that the answer begins with.
pub struct Written {
    pub commands: Vec<Command>,
    pub said: Vec<(usize, String)>,
}

impl Written {
    /// A comment `# -> words` says the answer of the command before it.
    pub fn read(path: &Path) -> Written {
        let text = std::fs::read_to_string(path).unwrap_or_else(|e| panic!("{}: {e}", path.display()));
        let mut written = Written { commands: Vec::new(), said: Vec::new() };
        for line in text.lines().map(str::trim).filter(|line| !line.is_empty()) {
            if let Some(words) = line.strip_prefix("# -> ") {
                written.said.push((written.commands.len() - 1, words.into()));
            } else if !line.starts_with('#') {
                written.commands.push(script::parse(line).unwrap_or_else(|| panic!("no command: {line}")));
            }
        }
        written
    }

    /// The scripts in a folder of compare/, in order of their names.
    pub fn all(root: &Path, folder: &str) -> Vec<Written> {
        let entries = std::fs::read_dir(root.join("compare").join(folder)).expect("a folder of the project");
        let mut paths: Vec<PathBuf> = entries.map(|entry| entry.expect("a file of the project").path()).collect();
        paths.sort();
        paths.iter().map(|path| Written::read(path)).collect()
    }

    /// Which of the said answers a side does not give.
    pub fn not_as_said(&self, side: Side) -> Vec<String> {
        let lines = side.lines(&self.commands);
        let as_said = |(at, words): &&(usize, String)| format!("{} ", lines[*at]).starts_with(&format!("{words} "));
        let not = self.said.iter().filter(|said| !as_said(said));
        not.map(|(at, words)| format!("{}: {side}: {}, not {words}", self.commands[*at], lines[*at])).collect()
    }
}
