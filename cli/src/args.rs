//! The command line, taken apart.

use crate::message::Failure;
use std::ffi::{OsStr, OsString};

/// A command: its name, what it is for, how it is called, and the function that answers.
pub struct Command {
    /// Its name.
    pub name: &'static str,
    /// What it is for, in a line.
    pub about: &'static str,
    /// What stands behind its name, a line for each form.
    pub forms: &'static [&'static str],
    /// The rest of its help.
    pub help: &'static str,
    /// How many operands it takes: at least, and at most.
    pub operands: (usize, usize),
    /// Its options.
    pub options: &'static [Opt],
    /// Answers the bytes for standard output.
    pub run: fn(&Given) -> Result<Vec<u8>, Failure>,
}

/// An option: its name, and what it is given, if it is given something.
pub struct Opt {
    /// Its name, with both hyphens.
    pub name: &'static str,
    /// What stands behind it, as the help calls it.
    pub value: Option<&'static str>,
}

/// What a command is called with.
pub struct Given {
    /// The command's name, for messages.
    pub command: &'static str,
    /// What is no option, in order.
    pub operands: Vec<OsString>,
    options: Vec<(&'static str, OsString)>,
}

impl Given {
    /// Takes the words behind a command's name apart; none where they ask for help. An option's value stands behind it, or behind `=`; `--` ends
    /// the options, and `-` is an operand.
    pub fn parse(command: &Command, args: &[OsString]) -> Result<Option<Self>, Failure> {
        let mut given = Self {
            command: command.name,
            operands: vec![],
            options: vec![],
        };
        let mut rest = args.iter();
        while let Some(arg) = rest.next() {
            match arg.as_encoded_bytes() {
                b"--help" | b"-h" => return Ok(None),
                b"--" => given.operands.extend(rest.by_ref().cloned()),
                [b'-', _, ..] => given.take(command, arg, || rest.next().cloned())?,
                _ => given.operands.push(arg.clone()),
            }
        }
        given.count(command)?;
        Ok(Some(given))
    }

    /// Takes an option, and its value where it has one.
    fn take(
        &mut self,
        command: &Command,
        arg: &OsStr,
        next: impl FnOnce() -> Option<OsString>,
    ) -> Result<(), Failure> {
        let (name, inside) = apart(arg);
        let Some(option) = command.options.iter().find(|option| option.name == name) else {
            return Err(self.usage(&format!("there is no option {name}")));
        };
        if self.has(option.name) {
            return Err(self.usage(&format!("{name} is given twice")));
        }
        let value = match (option.value, inside) {
            (None, None) => OsString::new(),
            (None, Some(_)) => return Err(self.usage(&format!("{name} takes no value"))),
            (Some(_), Some(value)) => value,
            (Some(what), None) => {
                next().ok_or_else(|| self.usage(&format!("{name} has to be followed by {what}")))?
            }
        };
        self.options.push((option.name, value));
        Ok(())
    }

    /// Whether there are as many operands as the command takes.
    fn count(&self, command: &Command) -> Result<(), Failure> {
        let (least, most) = command.operands;
        if self.operands.len() < least {
            let form = command.forms.first().unwrap_or(&"");
            return Err(self.usage(&format!(
                "an operand is missing: it is called as {} {form}",
                command.name
            )));
        }
        match self.operands.get(most) {
            Some(more) => Err(self.usage(&format!(
                "{} is one operand too many",
                more.to_string_lossy()
            ))),
            None => Ok(()),
        }
    }

    /// The value of an option that is given.
    pub fn value(&self, name: &str) -> Option<&OsStr> {
        let found = self.options.iter().find(|option| option.0 == name);
        found.map(|option| option.1.as_os_str())
    }

    /// Whether an option is given.
    pub fn has(&self, name: &str) -> bool {
        self.value(name).is_some()
    }

    /// The number that an option is given, if it is given.
    pub fn number(&self, name: &str) -> Result<Option<u64>, Failure> {
        let Some(value) = self.value(name) else {
            return Ok(None);
        };
        let text = value.to_string_lossy();
        // as rows of a log have none, a number has no sign
        match text.parse() {
            Ok(number) if !text.starts_with('+') => Ok(Some(number)),
            _ => Err(self.usage(&format!(
                "{name} takes a number from 0 to {}, and {text} is none",
                u64::MAX
            ))),
        }
    }

    /// The failure of a call that is wrong.
    pub fn usage(&self, text: &str) -> Failure {
        Failure::usage(self.command, text)
    }
}

/// The name of an option, and its value where one stands behind `=`, which may be a name of any bytes.
#[cfg(unix)]
fn apart(arg: &OsStr) -> (String, Option<OsString>) {
    use std::os::unix::ffi::OsStrExt;
    let mut parts = arg.as_bytes().splitn(2, |byte| *byte == b'=');
    let mut next = || parts.next().map(OsStr::from_bytes);
    let name = next().unwrap_or_default().to_string_lossy().into_owned();
    (name, next().map(OsStr::to_os_string))
}

/// The same where names are text. One that is not is left whole, and there is no option of such a name.
#[cfg(not(unix))]
fn apart(arg: &OsStr) -> (String, Option<OsString>) {
    let whole = || (arg.to_string_lossy().into_owned(), None);
    let parts = arg.to_str().and_then(|text| text.split_once('='));
    parts.map_or_else(whole, |(name, value)| {
        (name.to_string(), Some(value.into()))
    })
}
