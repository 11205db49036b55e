//! Which file is made of which, and what stands against it before anything is read. Nothing here needs the library either.
use std::collections::HashMap;
use std::ffi::{OsStr, OsString};
use std::fs::{self, File, Metadata, OpenOptions};
use std::io::{self, ErrorKind};
use std::os::fd::{AsFd, BorrowedFd};
use std::os::unix::ffi::OsStrExt;
use std::os::unix::fs::{MetadataExt, OpenOptionsExt};
use std::path::{Path, PathBuf};

use crate::arguments::{shown, Job, Verb};

/// A file, or standard input or output.
pub enum Place {
    Standard,
    File(PathBuf),
}

impl Place {
    fn of(word: &OsStr) -> Place {
        if word == "-" {
            Place::Standard
        } else {
            Place::File(word.into())
        }
    }

    /// As it is said to people, where it is read.
    pub fn input(&self) -> String {
        match self {
            Place::Standard => "standard input".into(),
            Place::File(path) => shown(path),
        }
    }
}

/// One input, where its output goes if the verb writes one, and what is wrong with either.
pub struct Item {
    pub from: Place,
    pub to: Option<Place>,
    pub wrong: Option<String>,
}

/// What the system says of a failure, without its number.
pub fn why(error: &std::io::Error) -> String {
    let text = error.to_string().to_lowercase();
    text.split(" (os error").next().unwrap_or_default().to_string()
}

/// Whether a name is that of a folder, or can be of nothing else.
fn is_folder(path: &Path) -> bool {
    path.as_os_str().as_bytes().ends_with(b"/") || fs::metadata(path).is_ok_and(|m| m.is_dir())
}

pub fn plan(job: &Job) -> Result<Vec<Item>, String> {
    // The endings that an input's name may have, and that of its output's.
    let extension: Option<(&[&str], &str)> = match job.verb {
        Verb::Encode { .. } => Some((&["wav"], "sqv4")),
        Verb::Decode { .. } => Some((&["sqv4", "sqv"], "wav")),
        Verb::Inspect | Verb::Check { .. } => None,
    };
    let folder = job.output.as_deref().filter(|word| *word != "-").map(Path::new).filter(|path| is_folder(path));
    if let (Some(output), None, true) = (&job.output, folder, job.inputs.len() > 1) {
        return Err(format!("{} is no folder, and many files go into one; see postlapse help", shown(output)));
    }
    let mut items = Vec::new();
    for word in &job.inputs {
        let from = Place::of(word);
        let to = match (extension, &from, &job.output, folder) {
            (None, ..) => None,
            (Some(_), Place::Standard, None, _) => Some(Place::Standard),
            (Some(_), Place::Standard, _, Some(_)) => {
                return Err("standard input has no name: say the output's, not a folder; see postlapse help".into());
            }
            (Some(extension), Place::File(path), None, _) => Some(Place::File(renamed(path, extension))),
            (Some(extension), Place::File(path), _, Some(folder)) => {
                Some(Place::File(folder.join(renamed(Path::new(path.file_name().unwrap_or_default()), extension))))
            }
            (Some(_), _, Some(output), None) => Some(Place::of(output)),
        };
        items.push(Item { from, to, wrong: None });
    }
    let mut made = HashMap::new();
    for item in &items {
        let Some((to, target)) = item.to.as_ref().and_then(target) else { continue };
        if let Some(before) = made.insert(target, &item.from) {
            let (one, two) = (before.input(), item.from.input());
            return Err(format!("{one} and {two} would both be made into {}", shown(to)));
        }
    }
    let read: Vec<Metadata> = items.iter().filter_map(|item| metadata(&item.from, io::stdin().as_fd())).collect();
    for item in &mut items {
        item.wrong = unreadable(&item.from).or_else(|| unwritable(item.to.as_ref()?, job, &read));
    }
    Ok(items)
}

/// A name with another ending, in place of one of these or behind it: a.wav is a.sqv4, and floor 1.5 is floor 1.5.sqv4.
fn renamed(path: &Path, (endings, new): (&[&str], &str)) -> PathBuf {
    match path.extension() {
        Some(old) if endings.iter().any(|ending| old.eq_ignore_ascii_case(ending)) => path.with_extension(new),
        _ => [path.as_os_str(), OsStr::new("."), OsStr::new(new)].iter().copied().collect::<OsString>().into(),
    }
}

/// The folder that a file stands in.
fn folder_of(path: &Path) -> &Path {
    path.parent().filter(|folder| !folder.as_os_str().is_empty()).unwrap_or(Path::new("."))
}

/// The file of an output, and its name with the folder's own, by which a.sqv4 and ./a.sqv4 are one.
fn target(to: &Place) -> Option<(&Path, PathBuf)> {
    let Place::File(path) = to else { return None };
    let folder = folder_of(path);
    Some((path, fs::canonicalize(folder).unwrap_or(folder.into()).join(path.file_name()?)))
}

fn metadata(place: &Place, standard: BorrowedFd) -> Option<Metadata> {
    match place {
        Place::Standard => File::from(standard.try_clone_to_owned().ok()?).metadata().ok(),
        Place::File(path) => fs::metadata(path).ok(),
    }
}

fn unreadable(from: &Place) -> Option<String> {
    let Place::File(path) = from else { return None };
    let name = shown(path);
    match fs::metadata(path) {
        Err(error) if error.kind() == ErrorKind::NotFound => {
            Some(format!("there is no file {}", if name.is_empty() { "''" } else { &name }))
        }
        Err(error) => Some(format!("{name} cannot be read: {}", why(&error))),
        Ok(found) if found.is_dir() => Some(format!("{name} is a folder")),
        // A pipe is not opened twice.
        Ok(found) if !found.is_file() => None,
        Ok(_) => File::open(path).err().map(|error| format!("{name} cannot be read: {}", why(&error))),
    }
}

/// Why no file can be made in a folder, if the system says so when it is asked for one without a name; not all file systems have these.
fn closed(folder: &Path) -> Option<String> {
    const WITHOUT_A_NAME: i32 = 0o20_200_000;
    let made = OpenOptions::new().write(true).custom_flags(WITHOUT_A_NAME).open(folder);
    let error = made.err()?;
    // EACCES and EROFS
    matches!(error.raw_os_error(), Some(13 | 30)).then(|| why(&error))
}

fn unwritable(to: &Place, job: &Job, read: &[Metadata]) -> Option<String> {
    let is_input = |to: Metadata| read.iter().any(|from| (from.dev(), from.ino()) == (to.dev(), to.ino()));
    let there = metadata(to, io::stdout().as_fd());
    let Place::File(path) = to else {
        let input = there.is_some_and(|found| found.is_file() && is_input(found));
        return input.then(|| "standard output is the input itself".into());
    };
    let name = shown(path);
    if there.is_some_and(is_input) {
        return Some(format!("{name} is the input itself"));
    }
    let Ok(there) = fs::symlink_metadata(path) else {
        let folder = folder_of(path);
        return match fs::metadata(folder) {
            _ if path.file_name().is_none() => Some(format!("'{name}' is no name for an output")),
            _ if ["/dev", "/proc"].iter().any(|system| path.starts_with(system)) => {
                Some(format!("{name} is no place for an output: name one with -o"))
            }
            Ok(found) if found.is_dir() => closed(folder).map(|why| format!("{name} cannot be written: {why}")),
            _ => Some(format!("{name} cannot be written: there is no folder {}", shown(folder))),
        };
    };
    if !there.is_file() {
        return Some(format!("{name} is there and is not a plain file"));
    }
    if let (Verb::Encode { .. }, true) = (&job.verb, path.extension().is_some_and(|e| e.eq_ignore_ascii_case("wav")))
    {
        return Some(format!(
            "{name} is there, and its name is that of a WAV file: an SQV4 file does not replace it"
        ));
    }
    if !job.force {
        return Some(format!("{name} is there already; -f replaces it"));
    }
    let opened = OpenOptions::new().write(true).open(path);
    opened.err().map(|error| format!("{name} is there and cannot be written: {}", why(&error)))
}
