use crate::{sample, Folder};
use std::{io::Write, process::Stdio};

const COMMANDS: [&str; 6] = ["compare", "pack", "unpack", "explain", "rates", "refetch"];

#[test]
fn help_and_version() {
    let folder = Folder::new("help_and_version");
    folder
        .run(&["--version"])
        .answers(&format!("fernsponge {}\n", env!("CARGO_PKG_VERSION")));
    folder
        .run(&["-V"])
        .answers(&folder.run(&["--version"]).text());
    let all = folder.run(&["--help"]);
    assert_eq!(
        (all.0.status.code(), all.message()),
        (Some(0), String::new())
    );
    folder.run(&["-h"]).answers(&all.text());
    folder.run(&["help"]).answers(&all.text());
    assert!(all
        .text()
        .contains("count rows, columns, lines and items from 1"));
    for command in COMMANDS {
        assert!(
            all.text()
                .lines()
                .any(|line| line.starts_with(&format!("  {command} "))),
            "{command}"
        );
        let help = folder.run(&[command, "--help"]);
        assert_eq!(
            (help.0.status.code(), help.message()),
            (Some(0), String::new())
        );
        assert!(
            help.text().starts_with(&format!("fernsponge {command}: "))
                && help
                    .text()
                    .contains(&format!("usage: fernsponge {command} "))
        );
        folder.run(&["help", command]).answers(&help.text());
        folder
            .run(&[command, "no", "such", "files", "-h"])
            .answers(&help.text());
    }
}

#[test]
fn lines_of_help_fit_a_screen() {
    let folder = Folder::new("lines_of_help_fit_a_screen");
    let texts = COMMANDS.map(|command| folder.run(&["help", command]).text());
    for line in texts.iter().flat_map(|text| text.lines()) {
        assert!(line.len() <= 124, "{line}");
    }
}

#[test]
fn no_command() {
    let folder = Folder::new("no_command");
    folder
        .run(&[])
        .fails("a command is missing\nfernsponge --help tells how to call it");
    folder
        .run(&["compares"])
        .fails("there is no command compares\nfernsponge --help tells how to call it");
    folder
        .run(&["help", "compares"])
        .fails("there is no command compares\nfernsponge --help tells how to call it");
    folder
        .run(&["--verbose"])
        .fails("there is no command --verbose\nfernsponge --help tells how to call it");
}

/// The reader of the pipe is gone before anything is written.
#[test]
fn a_closed_pipe_is_no_failure() {
    let folder =
        Folder::new("a_closed_pipe_is_no_failure").with("theirs.csv", sample("theirs.csv"));
    let mut command = folder.command(&["compare", "-", "theirs.csv"]);
    command
        .stdin(Stdio::piped())
        .stdout(Stdio::piped())
        .stderr(Stdio::piped());
    let mut child = command.spawn().unwrap();
    drop(child.stdout.take());
    child
        .stdin
        .take()
        .unwrap()
        .write_all(&sample("ours.csv"))
        .unwrap();
    crate::Ran(child.wait_with_output().unwrap()).is(0, "", "");
}

#[cfg(target_os = "linux")]
#[test]
fn output_that_cannot_be_written() {
    let folder = Folder::new("output_that_cannot_be_written");
    let full = std::fs::OpenOptions::new()
        .write(true)
        .open("/dev/full")
        .unwrap();
    let ran = crate::Ran(
        folder
            .command(&["--version"])
            .stdout(full)
            .output()
            .unwrap(),
    );
    ran.fails("standard output: cannot be written: No space left on device (os error 28)");
}

/// A name that is no UTF-8 is a name like any other.
#[cfg(target_os = "linux")]
#[test]
fn names_of_any_bytes() {
    use std::os::unix::ffi::OsStrExt;
    let folder = Folder::new("names_of_any_bytes").with("theirs.csv", "");
    let name = std::ffi::OsStr::from_bytes(b"\xFF.csv");
    std::fs::write(folder.0.join(name), "Key,03,").unwrap();
    let mut command = folder.command(&["compare", "theirs.csv", "--theirs", "-"]);
    crate::Ran(command.arg(name).output().unwrap()).answers("Key,03,\r\n");
    // also behind an option's =
    let mut command = folder.command(&["compare", "theirs.csv", "theirs.csv"]);
    let option = std::ffi::OsStr::from_bytes(b"--ours=a\xFF=b");
    crate::Ran(command.arg(option).output().unwrap()).answers("");
    let written = folder.0.join(std::ffi::OsStr::from_bytes(b"a\xFF=b"));
    assert_eq!(std::fs::read(written).unwrap(), b"");
    let mut command = folder.command(&["compare", "theirs.csv", "theirs.csv"]);
    let option = std::ffi::OsStr::from_bytes(b"-\xFF");
    crate::Ran(command.arg(option).output().unwrap())
        .is_wrong("compare", "there is no option -\u{FFFD}");
}

/// What has no end is not read to its end.
#[cfg(target_os = "linux")]
#[test]
fn inputs_without_end() {
    let folder = Folder::new("inputs_without_end");
    folder
        .run(&["unpack", "/dev/zero"])
        .fails("/dev/zero: it has more than 256 MiB, the most that are read");
    let endless = r#"(printf KRL; exec cat /dev/zero) | "$0" unpack -"#;
    let mut command = std::process::Command::new("sh");
    command.args(["-c", endless, env!("CARGO_BIN_EXE_fernsponge")]);
    crate::Ran(command.stderr(Stdio::piped()).output().unwrap()).refuses(
        "standard input: it has more than 65,536 bytes, the most that a KRL file has (refusal 10)",
    );
}

/// The command has the version of the library that it is made of.
#[test]
fn one_version() {
    let folder = std::path::Path::new(env!("CARGO_MANIFEST_DIR"));
    let text = std::fs::read_to_string(folder.join("../rust/Cargo.toml")).unwrap();
    let version = text
        .lines()
        .find_map(|line| line.strip_prefix("version = "));
    assert_eq!(
        version,
        Some(concat!("\"", env!("CARGO_PKG_VERSION"), "\""))
    );
}
