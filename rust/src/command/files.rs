//! Reading inputs whole, and writing outputs so that nothing is lost: into a temporary file beside the target, which takes the target's
//! name when it is whole and written back.
use std::fs::{self, File, OpenOptions, Permissions};
use std::io::{self, ErrorKind, IsTerminal, Read, Write};
use std::os::unix::fs::{fchown, MetadataExt, PermissionsExt};
use std::path::{Path, PathBuf};
use std::process;

use crate::arguments::shown;
use crate::plan::{why, Place};
use crate::system;

/// The bytes of an input. Of one that does not begin with the letters that are wanted only the first 16: they decide, and the input may
/// have no end.
pub fn read(from: &Place, wanted: &[u8]) -> Result<Vec<u8>, String> {
    let read = match from {
        Place::Standard if system::input_closed() => return Err("standard input is closed".into()),
        Place::Standard => whole(io::stdin().lock(), wanted, 0),
        Place::File(path) => File::open(path).and_then(|file| {
            let size = file.metadata()?.len() as usize;
            whole(file, wanted, size)
        }),
    };
    read.map_err(|error| format!("{} cannot be read: {}", from.input(), why(&error)))
}

fn whole(mut source: impl Read, wanted: &[u8], size: usize) -> io::Result<Vec<u8>> {
    let mut bytes = Vec::new();
    source.by_ref().take(16).read_to_end(&mut bytes)?;
    if bytes.starts_with(wanted) {
        bytes
            .try_reserve_exact(size.saturating_sub(bytes.len()).saturating_add(1))
            .map_err(|_| ErrorKind::OutOfMemory)?;
        source.read_to_end(&mut bytes)?;
    }
    Ok(bytes)
}

pub fn write(to: &Place, bytes: &[u8], force: bool) -> Result<(), String> {
    match to {
        Place::Standard => print(bytes),
        Place::File(path) => {
            put(path, bytes, force).map_err(|error| format!("{} could not be written: {}", shown(path), why(&error)))
        }
    }
}

/// Standard output takes the data asked for and nothing else, and no sound on a terminal.
fn print(bytes: &[u8]) -> Result<(), String> {
    let mut out = io::stdout().lock();
    if out.is_terminal() {
        return Err("standard output is a terminal: name an output file with -o".into());
    }
    printed(out.write_all(bytes).and_then(|()| out.flush()))
}

/// Where a reader has gone away (`| head`) nothing is said.
pub fn printed(done: io::Result<()>) -> Result<(), String> {
    if system::output_closed() {
        return Err("standard output is closed".into());
    }
    done.map_err(|error| match error.kind() {
        ErrorKind::BrokenPipe => String::new(),
        _ => format!("standard output could not be written: {}", why(&error)),
    })
}

fn put(path: &Path, bytes: &[u8], force: bool) -> io::Result<()> {
    let (name, file) = temporary(path.parent().unwrap_or(Path::new("")))?;
    let done = fill(file, path, bytes).and_then(|()| rename(&name, path, force));
    // It is there no more where it was renamed.
    let _ = fs::remove_file(&name);
    system::remove_on_signal(None);
    done
}

/// A new file in the folder, which a signal removes.
fn temporary(folder: &Path) -> io::Result<(PathBuf, File)> {
    for number in 0.. {
        let name = folder.join(format!(".postlapse-{}-{number}.tmp", process::id()));
        system::remove_on_signal(Some(&name));
        match OpenOptions::new().write(true).create_new(true).open(&name) {
            Ok(file) => return Ok((name, file)),
            Err(error) => {
                system::remove_on_signal(None);
                if error.kind() != ErrorKind::AlreadyExists {
                    return Err(error);
                }
            }
        }
    }
    unreachable!()
}

/// It has the permissions of the file that it replaces before there is anything to read in it, and is written back before it takes the
/// name.
fn fill(mut file: File, path: &Path, bytes: &[u8]) -> io::Result<()> {
    if let Ok(old) = fs::symlink_metadata(path) {
        file.set_permissions(Permissions::from_mode(mode_like(&file, &old)?))?;
    }
    file.write_all(bytes)?;
    file.sync_all()
}

/// Gives the file the owner and the group of another as far as that is allowed, and says which permissions it can have: the other's, but
/// for its group's where the group is not the same.
fn mode_like(file: &File, old: &fs::Metadata) -> io::Result<u32> {
    let new = file.metadata()?;
    if (new.uid(), new.gid()) != (old.uid(), old.gid()) && fchown(file, Some(old.uid()), Some(old.gid())).is_err() {
        // Only root may give a file away. One's own groups others may give it.
        let _ = fchown(file, None, Some(old.gid()));
    }
    let theirs = if file.metadata()?.gid() == old.gid() { 0o777 } else { 0o707 };
    Ok(old.mode() & theirs)
}

/// Without `force` a file that came in the meantime stays: a second name is refused where there is one already.
fn rename(name: &Path, path: &Path, force: bool) -> io::Result<()> {
    if force {
        return fs::rename(name, path);
    }
    match fs::hard_link(name, path) {
        // A file system without second names.
        Err(error) if error.kind() != ErrorKind::AlreadyExists && fs::symlink_metadata(path).is_err() => {
            fs::rename(name, path)
        }
        linked => linked,
    }
}
