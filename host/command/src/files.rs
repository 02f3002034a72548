//! Files as the command uses them: read whole, changed in place by offset, or made new.

use crate::failure::Failure;
use crate::report::{counted, shown};
use std::fs::{self, File, OpenOptions};
use std::io::{self, ErrorKind, Read, Write};
use std::ops::Range;
use std::os::unix::fs::{FileExt, MetadataExt, OpenOptionsExt};
use std::path::{Path, PathBuf};

/// The most bytes that a file may have: those of the largest bucket.
const LARGEST: usize = 16_777_216;

/// Refuses to take one file for two, as what is written to the one would be read from the other.
pub fn all_different(paths: &[&Path]) -> Result<(), Failure> {
    let identity = |path: &Path| fs::metadata(path).ok().map(|metadata| (metadata.dev(), metadata.ino()));
    for (index, path) in paths.iter().enumerate() {
        let same = paths[..index].iter().find(|earlier| *earlier == path || identity(earlier).is_some() && identity(earlier) == identity(path));
        if let Some(earlier) = same {
            return Err(Failure::Misuse(format!("{} and {} are one file.", shown(earlier), shown(path))));
        }
    }
    Ok(())
}

/// All bytes of a file.
pub fn read(path: &Path) -> Result<Vec<u8>, Failure> {
    let file = File::open(path).map_err(|error| unusable(path, "read", &error))?;
    contents(&shown(path), file)
}

/// All bytes of something that can be read.
pub fn contents(name: &str, from: impl Read) -> Result<Vec<u8>, Failure> {
    let mut bytes = Vec::new();
    let read = from.take(LARGEST as u64 + 1).read_to_end(&mut bytes);
    read.map_err(|error| Failure::File(format!("{name} cannot be read: {error}.")))?;
    if bytes.len() > LARGEST {
        return Err(Failure::File(format!("{name} has more than {}, which is the most there may be.", counted(LARGEST, "byte"))));
    }
    Ok(bytes)
}

/// A file that is changed in place: its bytes, and itself.
pub struct InPlace {
    path: PathBuf,
    file: File,
    pub bytes: Vec<u8>,
}

impl InPlace {
    pub fn open(path: &Path) -> Result<InPlace, Failure> {
        let file = OpenOptions::new().read(true).write(true).open(path).map_err(|error| unusable(path, "opened for reading and writing", &error))?;
        if !file.metadata().is_ok_and(|metadata| metadata.is_file()) {
            return Err(Failure::File(format!("{} is no regular file.", shown(path))));
        }
        let bytes = contents(&shown(path), &file)?;
        Ok(InPlace { path: path.to_path_buf(), file, bytes })
    }

    /// Writes these parts of the bytes to the file, each at its own offset, and has them on the disk before it is done.
    pub fn write(&self, parts: impl IntoIterator<Item = Range<usize>>) -> Result<(), Failure> {
        let mut parts = parts.into_iter();
        let written = parts.try_for_each(|part| self.file.write_all_at(&self.bytes[part.clone()], part.start as u64));
        written.and_then(|()| self.file.sync_data()).map_err(|error| {
            let what = format!("{} cannot be written: {error}", shown(&self.path));
            Failure::File(format!("{what}. What was written before that stays; run this again once it can be."))
        })
    }
}

/// Makes a file that is not there yet, for those to read who may read the one that it comes from: it appears with all of its bytes, on the disk, or not
/// at all.
pub fn create(path: &Path, bytes: &[u8], from: &Path) -> Result<(), Failure> {
    let cannot = |error: io::Error| match error.kind() {
        ErrorKind::AlreadyExists => Failure::File(format!("{} is there already, and nothing is written over it.", shown(path))),
        _ => Failure::File(format!("{} cannot be made: {error}.", shown(path))),
    };
    if path.symlink_metadata().is_ok() {
        return Err(cannot(ErrorKind::AlreadyExists.into()));
    }
    let folder = path.parent().filter(|folder| !folder.as_os_str().is_empty()).unwrap_or(Path::new("."));
    // Whoever makes it can write it too.
    let mode = 0o600 | fs::metadata(from).map_or(0, |metadata| metadata.mode() & 0o777);
    let (unfinished, mut file) = begin(folder, mode).map_err(cannot)?;
    let made = file.write_all(bytes).and_then(|()| file.sync_all()).and_then(|()| place(&unfinished, path));
    remove(&unfinished);
    // The name is on the disk too then, where a folder can be read and synced at all.
    let _ = File::open(folder).and_then(|folder| folder.sync_all());
    made.map_err(cannot)
}

/// A new file in a folder, under a name that no other has.
fn begin(folder: &Path, mode: u32) -> io::Result<(PathBuf, File)> {
    let mut number = 0;
    loop {
        let unfinished = folder.join(format!(".cotelark-{number}.unfinished"));
        match OpenOptions::new().write(true).create_new(true).mode(mode).open(&unfinished) {
            Err(error) if error.kind() == ErrorKind::AlreadyExists => number += 1,
            begun => return begun.map(|file| (unfinished, file)),
        }
    }
}

/// Gives a file its name, unless another has it: by a link, which never takes a name from a file, or else, where there are no links, by renaming it.
fn place(unfinished: &Path, path: &Path) -> io::Result<()> {
    match fs::hard_link(unfinished, path) {
        Err(error) if error.kind() != ErrorKind::AlreadyExists && path.symlink_metadata().is_err() => fs::rename(unfinished, path),
        linked => linked,
    }
}

/// Removes a file that is not wanted any more; if that fails, there is nothing left to do about it.
pub fn remove(path: &Path) {
    let _ = fs::remove_file(path);
}

fn unusable(path: &Path, done: &str, error: &io::Error) -> Failure {
    Failure::File(match error.kind() {
        ErrorKind::NotFound => format!("there is no file {}.", shown(path)),
        _ => format!("{} cannot be {done}: {error}.", shown(path)),
    })
}

#[cfg(test)]
mod tests {
    use super::*;

    #[test]
    fn no_name_is_taken_from_a_file() {
        let folder = std::env::temp_dir().join(format!("cotelark-files-{}", std::process::id()));
        fs::create_dir(&folder).expect("a folder for the test");
        let (unfinished, there) = (folder.join("unfinished"), folder.join("there"));
        fs::write(&unfinished, "new").expect("a file of the test's");
        fs::write(&there, "old").expect("a file of the test's");
        let placed = place(&unfinished, &there).map_err(|error| error.kind());
        let kept = fs::read(&there).expect("a file that is there");
        fs::remove_dir_all(&folder).expect("the test's own folder");
        assert_eq!((placed, &kept[..]), (Err(ErrorKind::AlreadyExists), &b"old"[..]));
    }
}
