//! The command as its users call it: what it writes to standard output and standard error, and its exit status.

mod compare;
mod explain;
mod general;
mod pack;
mod rates;
mod refetch;

use std::{
    fs,
    io::Write,
    path::{Path, PathBuf},
    process::{Command, Output, Stdio},
};

/// A folder of its own for each test, by the test's name.
struct Folder(PathBuf);

impl Folder {
    fn new(test: &str) -> Self {
        let path = Path::new(env!("CARGO_TARGET_TMPDIR")).join(test);
        let _ = fs::remove_dir_all(&path);
        fs::create_dir_all(&path).unwrap();
        Self(path)
    }

    /// Puts a file there.
    fn with(self, name: &str, bytes: impl AsRef<[u8]>) -> Self {
        fs::write(self.0.join(name), bytes).unwrap();
        self
    }

    /// What a file there has.
    fn bytes(&self, name: &str) -> Vec<u8> {
        fs::read(self.0.join(name)).unwrap()
    }

    fn text(&self, name: &str) -> String {
        String::from_utf8(self.bytes(name)).unwrap()
    }

    /// Whether there is a file of this name.
    fn has(&self, name: &str) -> bool {
        self.0.join(name).exists()
    }

    /// The command, to be run there.
    fn command(&self, args: &[&str]) -> Command {
        let mut command = Command::new(env!("CARGO_BIN_EXE_fernsponge"));
        command
            .args(args)
            .current_dir(&self.0)
            .env_remove("COLUMNS");
        command.stdin(Stdio::null());
        command
    }

    fn run(&self, args: &[&str]) -> Ran {
        Ran(self.command(args).output().unwrap())
    }

    /// The same with standard input.
    fn run_on(&self, args: &[&str], input: &[u8]) -> Ran {
        let mut command = self.command(args);
        command
            .stdin(Stdio::piped())
            .stdout(Stdio::piped())
            .stderr(Stdio::piped());
        let mut child = command.spawn().unwrap();
        // a command that is called wrongly does not read it
        let _ = child.stdin.take().unwrap().write_all(input);
        Ran(child.wait_with_output().unwrap())
    }
}

/// What a run has left.
struct Ran(Output);

impl Ran {
    /// Status 0, this text, and no message.
    #[track_caller]
    fn answers(&self, text: &str) {
        self.is(0, text, "");
    }

    /// Status 1, no text, and this message.
    #[track_caller]
    fn refuses(&self, message: &str) {
        self.is(1, "", &format!("fernsponge: {message}\n"));
    }

    /// Status 2, no text, and this message.
    #[track_caller]
    fn fails(&self, message: &str) {
        self.is(2, "", &format!("fernsponge: {message}\n"));
    }

    /// Status 2, no text, and this message with a hint at the help.
    #[track_caller]
    fn is_wrong(&self, command: &str, message: &str) {
        self.fails(&format!(
            "{command}: {message}\nfernsponge {command} --help tells how to call it"
        ));
    }

    #[track_caller]
    fn is(&self, status: i32, text: &str, message: &str) {
        assert_eq!(
            (self.0.status.code(), self.text(), self.message()),
            (Some(status), text.to_string(), message.to_string())
        );
    }

    fn text(&self) -> String {
        String::from_utf8_lossy(&self.0.stdout).into_owned()
    }

    fn message(&self) -> String {
        String::from_utf8_lossy(&self.0.stderr).into_owned()
    }

    /// The bytes of an answer.
    #[track_caller]
    fn bytes(&self) -> &[u8] {
        assert_eq!(
            (self.0.status.code(), self.message()),
            (Some(0), String::new())
        );
        &self.0.stdout
    }
}

/// A file of the samples.
fn sample(name: &str) -> Vec<u8> {
    fs::read(
        Path::new(env!("CARGO_MANIFEST_DIR"))
            .join("../samples")
            .join(name),
    )
    .unwrap()
}

/// A KRL file of these parts, whatever they say.
fn krl(pool: &[u8], ours: &[[u8; 8]], theirs: &[[u8; 8]]) -> Vec<u8> {
    let mut bytes = b"KRL".to_vec();
    for number in [1, pool.len(), ours.len(), theirs.len()] {
        bytes.extend((number as u16).to_be_bytes());
    }
    bytes.extend(pool);
    bytes.extend(ours.iter().chain(theirs).flatten());
    bytes
}
