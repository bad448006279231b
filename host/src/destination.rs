//! Files that are written whole or not at all.

use crate::buffer::BLOCK;
use crate::failure::Failure;
use crate::identity::Identity;
use crate::name;
use crate::working::Working;
use std::ffi::OsStr;
use std::fs::{self, File, Metadata, OpenOptions};
use std::io::{self, Write};
use std::os::unix::io::AsFd;
use std::path::{Path, PathBuf};
use std::process;

/// What a file is to hold: its parts, one behind the other, so that nobody joins them in memory.
type Parts<'a> = &'a [&'a [u8]];

/// Writes a file beside the destination and renames it when it is complete, so what stood there
/// survives until then. A destination that is no regular file, such as a pipe, is written directly,
/// and `-` is standard output. The input is never written over, whatever names it goes by.
pub fn write(out: &OsStr, parts: Parts, input: Option<Identity>) -> Result<(), Failure> {
    if out == "-" || out == "/dev/stdout" {
        return write_standard(out, parts, input);
    }
    let path = Path::new(out);
    let written = match fs::metadata(path) {
        Ok(data) if !data.is_file() => directly(path, parts),
        Ok(data) => {
            spare(&data, input, out)?;
            replace(&linked(path), parts, Some(&data))
        }
        Err(error) if error.kind() == io::ErrorKind::NotFound => {
            replace(&linked(path), parts, None)
        }
        Err(error) => Err(error),
    };
    written.map_err(|error| {
        let named = format!("{}: {}", name::file(out), error);
        Failure::Unwritable(io::Error::new(error.kind(), named))
    })
}

fn write_standard(out: &OsStr, parts: Parts, input: Option<Identity>) -> Result<(), Failure> {
    let mut file = File::from(io::stdout().as_fd().try_clone_to_owned()?);
    spare(&file.metadata()?, input, out)?;
    Ok(put(&mut file, parts, |_| ())?)
}

fn spare(data: &Metadata, input: Option<Identity>, out: &OsStr) -> Result<(), Failure> {
    let identity = Identity::of_regular(data);
    if identity.is_some() && identity == input {
        let itself = format!("the output {} is the input itself", name::file(out));
        return Err(Failure::Use(itself));
    }
    Ok(())
}

/// The file that a link names, whether it is there or not: the link stays one. The system follows
/// as many links, and no more.
fn linked(path: &Path) -> PathBuf {
    let mut file = path.to_path_buf();
    for _ in 0..40 {
        match fs::read_link(&file) {
            Ok(link) => file = file.parent().unwrap_or(path).join(link),
            Err(_) => break,
        }
    }
    file
}

fn directly(path: &Path, parts: Parts) -> io::Result<()> {
    put(OpenOptions::new().write(true).open(path)?, parts, |_| ())
}

fn replace(path: &Path, parts: Parts, old: Option<&Metadata>) -> io::Result<()> {
    // Renaming asks for the folder's permission only, and a file may be protected by its own.
    if old.is_some() {
        OpenOptions::new().write(true).open(path)?;
    }
    let (beside, file) = create_beside(path)?;
    let length = parts.iter().map(|part| part.len() as u64).sum();
    let working = Working::writing(path.as_os_str(), length);
    let renamed = fill(file, parts, old, &working).and_then(|()| fs::rename(&beside, path));
    if renamed.is_err() {
        let _ = fs::remove_file(&beside);
    }
    renamed
}

/// A disk may tell that it is full only when it is asked to store.
fn fill(file: File, parts: Parts, old: Option<&Metadata>, working: &Working) -> io::Result<()> {
    if let Some(data) = old {
        file.set_permissions(data.permissions())?;
    }
    put(&file, parts, |done| working.done(done))?;
    file.sync_all()
}

/// Writes the parts and tells how many bytes are done. Of an output that is written directly it is
/// not told: it may be the terminal itself.
fn put(mut file: impl Write, parts: Parts, tell: impl Fn(u64)) -> io::Result<()> {
    let mut done = 0;
    for block in parts.iter().flat_map(|part| part.chunks(BLOCK)) {
        file.write_all(block)?;
        done += block.len() as u64;
        tell(done);
    }
    Ok(())
}

/// A new file in the folder of a path.
fn create_beside(path: &Path) -> io::Result<(PathBuf, File)> {
    let mut attempt = 0;
    loop {
        let beside = path.with_file_name(format!(".psp-{}-{}.tmp", process::id(), attempt));
        let created = OpenOptions::new()
            .write(true)
            .create_new(true)
            .open(&beside);
        match created {
            Err(error) if error.kind() == io::ErrorKind::AlreadyExists && attempt < 99 => {
                attempt += 1;
            }
            created => return created.map(|file| (beside, file)),
        }
    }
}

#[cfg(test)]
mod tests {
    use super::*;
    use std::env;
    use std::io::Read;
    use std::os::unix::fs::{symlink, PermissionsExt};

    /// An empty folder of its own for a test.
    fn folder(test: &str) -> PathBuf {
        let folder = env::temp_dir().join(format!("psp-test-{}-{}", process::id(), test));
        let _ = fs::remove_dir_all(&folder);
        fs::create_dir(&folder).expect("a folder");
        folder
    }

    fn names(folder: &Path) -> Vec<String> {
        let entries = fs::read_dir(folder).expect("a folder").flatten();
        let name = |entry: fs::DirEntry| entry.file_name().to_string_lossy().into_owned();
        let mut names: Vec<String> = entries.map(name).collect();
        names.sort();
        names
    }

    fn identity(path: &Path) -> Option<Identity> {
        Identity::of_regular(&fs::metadata(path).expect("a file"))
    }

    #[test]
    fn a_file_is_made_or_replaced_and_nothing_stays_beside_it() {
        let folder = folder("made");
        let out = folder.join("out");
        write(out.as_os_str(), &[b"first"], None).expect("written");
        let mut mode = fs::metadata(&out).expect("a file").permissions();
        mode.set_mode(0o640);
        fs::set_permissions(&out, mode).expect("permissions");
        write(out.as_os_str(), &[b"2"], None).expect("written");
        assert_eq!(fs::read(&out).expect("a file"), b"2");
        let mode = fs::metadata(&out).expect("a file").permissions().mode();
        assert_eq!((mode & 0o777, names(&folder)), (0o640, vec!["out".into()]));
        fs::remove_dir_all(&folder).expect("removed");
    }

    #[test]
    fn parts_stand_one_behind_the_other() {
        let folder = folder("parts");
        let out = folder.join("out");
        let long = vec![7; BLOCK + 1];
        write(out.as_os_str(), &[b"P5", b"", &long, b"end"], None).expect("written");
        let expected = [&b"P5"[..], &long, b"end"].concat();
        assert!(fs::read(&out).expect("a file") == expected);
        write(out.as_os_str(), &[], None).expect("written");
        assert_eq!(fs::read(&out).expect("a file"), b"");
        fs::remove_dir_all(&folder).expect("removed");
    }

    #[test]
    fn what_was_there_survives_a_failure() {
        let folder = folder("survives");
        let out = folder.join("out");
        fs::create_dir(&out).expect("a folder");
        fs::write(out.join("kept"), b"kept").expect("written");
        assert!(replace(&out, &[b"new"], None).is_err());
        assert_eq!(names(&folder), ["out"]);
        assert_eq!(fs::read(out.join("kept")).expect("a file"), b"kept");
        fs::remove_dir_all(&folder).expect("removed");
    }

    #[test]
    fn the_old_file_is_whole_until_the_new_one_is() {
        let folder = folder("whole");
        let out = folder.join("out");
        fs::write(&out, b"old").expect("written");
        let mut before = File::open(&out).expect("opened");
        write(out.as_os_str(), &[b"new"], None).expect("written");
        let mut text = String::new();
        before.read_to_string(&mut text).expect("read");
        assert_eq!(text, "old");
        fs::remove_dir_all(&folder).expect("removed");
    }

    #[test]
    fn the_input_is_spared_under_any_name() {
        let folder = folder("input");
        let [input, hard, soft] = ["input", "hard", "soft"].map(|name| folder.join(name));
        fs::write(&input, b"input").expect("written");
        fs::hard_link(&input, &hard).expect("linked");
        symlink(&input, &soft).expect("linked");
        for out in [&input, &hard, &soft] {
            let failure = write(out.as_os_str(), &[b"x"], identity(&input)).err();
            assert_eq!(failure.map(|failure| failure.status()), Some(2));
            assert_eq!(fs::read(out).expect("a file"), b"input");
        }
        fs::remove_dir_all(&folder).expect("removed");
    }

    #[test]
    fn a_link_stays_and_its_file_is_replaced() {
        let folder = folder("link");
        let [file, link] = ["file", "link"].map(|name| folder.join(name));
        fs::write(&file, b"old").expect("written");
        symlink(&file, &link).expect("linked");
        write(link.as_os_str(), &[b"new"], None).expect("written");
        assert_eq!(fs::read(&file).expect("a file"), b"new");
        fs::remove_file(&file).expect("removed");
        symlink("link", folder.join("second")).expect("linked");
        write(folder.join("second").as_os_str(), &[b"made"], None).expect("written");
        assert_eq!(fs::read(&file).expect("a file"), b"made");
        assert!(fs::symlink_metadata(&link).expect("a link").is_symlink());
        symlink("round", folder.join("round")).expect("linked");
        assert!(write(folder.join("round").as_os_str(), &[b"x"], None).is_err());
        assert_eq!(names(&folder), ["file", "link", "round", "second"]);
        fs::remove_dir_all(&folder).expect("removed");
    }

    #[test]
    fn a_device_is_written_directly_and_stays() {
        write(OsStr::new("/dev/null"), &[b"x"], None).expect("written");
        let failure = write(OsStr::new("/dev/full"), &[b"x"], None).err();
        let sentence = failure.and_then(|failure| failure.sentence());
        let sentence = sentence.unwrap_or_default();
        assert!(sentence.starts_with("cannot write: \"/dev/full\": No space"));
        assert!(write(OsStr::new("/dev"), &[b"x"], None).is_err());
    }
}
