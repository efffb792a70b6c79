//! Standard output, and the files that lists are written into.

use crate::{args::Given, input::is_standard, message::Failure};
use std::{
    ffi::{OsStr, OsString},
    fs,
    io::{self, ErrorKind, Write},
    path::{Path, PathBuf},
};

/// Writes to standard output at once. Where the reader of a pipe is gone, it has read what it wanted.
pub fn print(bytes: &[u8]) -> Result<(), Failure> {
    let mut out = io::stdout().lock();
    match out.write_all(bytes).and_then(|()| out.flush()) {
        Err(why) if why.kind() != ErrorKind::BrokenPipe => Err(Failure::unusable(format!(
            "standard output: cannot be written: {why}"
        ))),
        _ => Ok(()),
    }
}

/// The lists that a command writes, and the files that its options name for them.
pub struct Targets {
    /// The lists' names, and where each goes, if somewhere.
    places: Vec<(&'static str, Option<OsString>)>,
}

impl Targets {
    /// What the options of these lists name. One may name standard output, by `-`; none may name a file that is read, or that another names.
    pub fn of(given: &Given, lists: &[&'static str]) -> Result<Self, Failure> {
        let place = |list: &&'static str| {
            (
                *list,
                given.value(&format!("--{list}")).map(OsStr::to_os_string),
            )
        };
        let targets = Self {
            places: lists.iter().map(place).collect(),
        };
        targets.apart(given)?;
        Ok(targets)
    }

    /// Whether every file that is written is another one than those that are read or written besides it.
    fn apart(&self, given: &Given) -> Result<(), Failure> {
        let reads: Vec<_> = given
            .operands
            .iter()
            .filter_map(|name| read_file(name))
            .collect();
        let mut written = vec![];
        for (list, name) in &self.places {
            let Some(name) = name else { continue };
            let told = name.to_string_lossy();
            let file = written_file(name);
            if file.as_ref().is_some_and(|file| reads.contains(file)) {
                return Err(given.usage(&format!(
                    "--{list} {told}: that file is read, and is not written over"
                )));
            }
            if file.is_some() && written.contains(&file) {
                return Err(given.usage(&format!(
                    "--{list} {told}: another list is written there already"
                )));
            }
            written.push(file);
        }
        Ok(())
    }

    /// Whether no option names a place: all lists then go to standard output.
    pub fn is_empty(&self) -> bool {
        self.places.iter().all(|place| place.1.is_none())
    }

    /// Whether a list is asked for: by its option, or as no option names a place.
    pub fn wants(&self, list: &str) -> bool {
        let place = self.places.iter().find(|place| place.0 == list);
        self.is_empty() || place.is_some_and(|place| place.1.is_some())
    }

    /// Writes each list that has a file into it; answers what goes to standard output.
    pub fn write(&self, texts: &[Vec<u8>]) -> Result<Vec<u8>, Failure> {
        let mut printed = vec![];
        for ((_, name), text) in self.places.iter().zip(texts) {
            match name {
                Some(name) if is_standard(name) => printed.extend_from_slice(text),
                Some(name) => write_file(Path::new(name), text)?,
                None => {}
            }
        }
        Ok(printed)
    }

    /// Writes the lists as sheets: into the files that are named; or, where none is, to standard output one after another, each behind a line
    /// with its name and the number of its rows.
    pub fn write_sheets(&self, sheets: Vec<(usize, String)>) -> Result<Vec<u8>, Failure> {
        if !self.is_empty() {
            let texts: Vec<_> = sheets
                .into_iter()
                .map(|(_, text)| text.into_bytes())
                .collect();
            return self.write(&texts);
        }
        let lists = self.places.iter().map(|place| place.0).zip(sheets);
        let titled = lists.map(|(list, (count, text))| format!("{list} {count}\r\n{text}"));
        Ok(titled.collect::<String>().into_bytes())
    }
}

fn write_file(path: &Path, text: &[u8]) -> Result<(), Failure> {
    fs::write(path, text)
        .map_err(|why| Failure::unusable(format!("{}: cannot be written: {why}", path.display())))
}

/// Which file it is, under whatever name; of standard input and output, only where they are files. Devices and pipes can be named twice.
#[derive(PartialEq, Eq)]
enum File {
    /// By the numbers of device and file.
    #[cfg(unix)]
    Numbers(u64, u64),
    /// By its whole path.
    Whole(PathBuf),
    /// Standard output, where it is no file.
    Standard,
}

fn read_file(name: &OsStr) -> Option<File> {
    match is_standard(name) {
        true => existing(Path::new("/dev/stdin"))?,
        false => existing(Path::new(name))?,
    }
}

fn written_file(name: &OsStr) -> Option<File> {
    if is_standard(name) {
        let file = existing(Path::new("/dev/stdout")).flatten();
        return file.or(Some(File::Standard));
    }
    let path = &through_links(Path::new(name));
    match existing(path) {
        Some(file) => file,
        None => Some(File::Whole(
            fs::canonicalize(folder(path)).ok()?.join(path.file_name()?),
        )),
    }
}

/// As many links, one behind another, are followed. Systems follow no more, and do not write through more either.
const MOST_LINKS: usize = 40;

/// What a link stands for, which may be the name of a file that there is not yet; a name that is no link stands for itself.
fn through_links(path: &Path) -> PathBuf {
    let mut path = path.to_path_buf();
    for _ in 0..MOST_LINKS {
        match fs::read_link(&path) {
            Ok(next) => path = folder(&path).join(next),
            Err(_) => break,
        }
    }
    path
}

/// The folder of a path, which is the current one where the path names none.
fn folder(path: &Path) -> &Path {
    let parent = path.parent().unwrap_or(Path::new(""));
    if parent.as_os_str().is_empty() {
        Path::new(".")
    } else {
        parent
    }
}

/// What stands under a name, if something does: a file, or something that is none.
fn existing(path: &Path) -> Option<Option<File>> {
    let about = fs::metadata(path).ok()?;
    if !about.is_file() {
        return Some(None);
    }
    #[cfg(unix)]
    {
        use std::os::unix::fs::MetadataExt;
        Some(Some(File::Numbers(about.dev(), about.ino())))
    }
    #[cfg(not(unix))]
    Some(Some(File::Whole(fs::canonicalize(path).ok()?)))
}
