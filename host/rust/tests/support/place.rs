//! A folder for a test's files, and the command run in it.
use super::folder::Folder;
use std::io::Write;
use std::path::{Path, PathBuf};
use std::process::{Child, Command, Output, Stdio};

pub struct Place(Folder);

impl Place {
    /// An empty folder of that name, which goes when the test ends.
    pub fn new(name: &str) -> Place {
        Place(Folder::new(Path::new(env!("CARGO_TARGET_TMPDIR")), name))
    }

    pub fn path(&self, name: &str) -> PathBuf {
        self.0.path(name)
    }

    pub fn names(&self) -> Vec<String> {
        self.0.names()
    }

    /// The command btt with the words of a line, begun.
    pub fn begin(&self, line: &str, input: &[u8]) -> Child {
        let mut command = Command::new(env!("CARGO_BIN_EXE_btt"));
        command.args(line.split_whitespace()).current_dir(self.path(""));
        command.stdin(Stdio::piped()).stdout(Stdio::piped()).stderr(Stdio::piped());
        let mut child = command.spawn().unwrap();
        // A command that does not read its input may have closed it.
        let _ = child.stdin.take().unwrap().write_all(input);
        child
    }

    /// The command btt with the words of a line, run to its end.
    pub fn run(&self, line: &str, input: &[u8]) -> Output {
        self.begin(line, input).wait_with_output().unwrap()
    }

    /// The command btt with the words of a line and a redirection, by the shell: its exit status, and what it said.
    pub fn redirected(&self, line: &str, to: &str) -> (i32, String) {
        let script = format!("exec \"$0\" {line} {to}");
        let mut command = Command::new("sh");
        command.args(["-c", &script, env!("CARGO_BIN_EXE_btt")]).current_dir(self.path("")).stdin(Stdio::null());
        let output = command.output().unwrap();
        (output.status.code().unwrap(), String::from_utf8(output.stderr).unwrap())
    }

    /// The same for a line that is accepted: what it printed.
    #[track_caller]
    pub fn done(&self, line: &str, input: &[u8]) -> Vec<u8> {
        let output = self.run(line, input);
        assert_eq!(String::from_utf8_lossy(&output.stderr), "", "{line}");
        assert_eq!(output.status.code(), Some(0), "{line}");
        output.stdout
    }

    /// The same for a line that is not: its exit status, what it printed, and what it said.
    pub fn refused(&self, line: &str, input: &[u8]) -> (i32, String, String) {
        let output = self.run(line, input);
        let text = |bytes: Vec<u8>| String::from_utf8(bytes).unwrap();
        (output.status.code().unwrap(), text(output.stdout), text(output.stderr))
    }
}
