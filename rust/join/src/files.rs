//! Files that are written beside their places and put there at the end: all of them, or none.

use std::ffi::OsString;
use std::fs::{self, File, OpenOptions};
use std::io::{self, Write as _};
use std::os::unix::fs::MetadataExt as _;
use std::path::{Path, PathBuf};
use std::process;

use crate::options::{Conversion, Options};
use crate::stop::{Status, Stop};

/// The file system's own name of a file, which all links to it share; of one that is not there yet that of its folder,
/// and its name.
#[derive(Debug, Eq, PartialEq)]
struct Identity {
    device: u64,
    node: u64,
    missing: Option<OsString>,
}

/// Files that no other is written over, and what each of them is.
type Taken = Vec<(Option<Identity>, &'static str)>;

/// That no file that is written is one that is read, standard output, or named twice; through links too.
pub fn apart(options: &Options, names_are_read: bool) -> Result<(), Stop> {
    let mut taken = taken(&options.grammar, "is the grammar");
    let names = options.names.as_deref();
    let mut written = vec![
        ("--sheet", options.sheet.as_deref()),
        ("--trail", options.trail.as_deref()),
    ];
    match names_are_read {
        true => taken.push((names.and_then(identity), "is the table of names")),
        false => written.push(("--names", names)),
    }
    apart_from(taken, &written)
}

/// That the new sheet is written neither over the old one nor over standard output.
pub fn converted_apart(asked: &Conversion) -> Result<(), Stop> {
    let taken = taken(&asked.old, "is the old sheet");
    apart_from(taken, &[("--convert", Some(&asked.new))])
}

/// What is read first, and standard output.
fn taken(read: &Path, what: &'static str) -> Taken {
    let read = match read.as_os_str() == "-" {
        true => Path::new("/dev/stdin"),
        false => read,
    };
    let output = identity(Path::new("/dev/stdout"));
    vec![(identity(read), what), (output, "is standard output")]
}

fn apart_from(mut taken: Taken, written: &[(&str, Option<&Path>)]) -> Result<(), Stop> {
    for (option, path) in written {
        let Some(path) = path else { continue };
        let own = identity(path);
        let clash = taken
            .iter()
            .find(|(other, _)| own.is_some() && *other == own);
        if let Some((_, what)) = clash {
            return Err(refused(option, path, what));
        }
        taken.push((own, "is written by another option"));
    }
    Ok(())
}

fn refused(option: &str, path: &Path, what: &str) -> Stop {
    let path = path.display();
    Stop {
        status: Status::File,
        text: format!("{option} {path} {what}; it is not overwritten, name another file"),
    }
}

/// `None` for what has no place in the file system, such as /dev/null.
fn identity(path: &Path) -> Option<Identity> {
    let of = |found: fs::Metadata, missing| Identity {
        device: found.dev(),
        node: found.ino(),
        missing,
    };
    if let Ok(found) = fs::metadata(path) {
        return found.is_file().then(|| of(found, None));
    }
    let folder = path
        .parent()
        .filter(|folder| !folder.as_os_str().is_empty());
    let folder = fs::metadata(folder.unwrap_or(Path::new("."))).ok()?;
    Some(of(folder, Some(path.file_name()?.to_owned())))
}

/// What is written for one option.
struct Staged {
    path: PathBuf,
    bytes: Vec<u8>,
    /// Where the bytes stand until they are put in their place; nothing for a device or a pipe.
    beside: Option<Beside>,
}

struct Beside {
    /// What `path` leads to, links followed.
    place: PathBuf,
    new: PathBuf,
    /// What was there before, once it is kept here too.
    old: PathBuf,
    is_kept: bool,
    is_put: bool,
}

/// Files that wait to be put in their places. What is not put is removed.
#[derive(Default)]
pub struct Files {
    staged: Vec<Staged>,
}

impl Files {
    pub fn stage(&mut self, path: &Path, bytes: Vec<u8>) -> Result<(), Stop> {
        let fault = |fault: io::Error| Stop::file("write", path, &fault);
        let beside = beside(path, self.staged.len(), &bytes).map_err(fault)?;
        let path = path.to_owned();
        self.staged.push(Staged {
            path,
            bytes,
            beside,
        });
        Ok(())
    }

    /// Where one cannot be put, those before are taken back.
    pub fn put(mut self) -> Result<(), Stop> {
        for own in &mut self.staged {
            let done = match &mut own.beside {
                Some(beside) => beside.put(),
                None => written(&own.path, &own.bytes),
            };
            done.map_err(|fault| Stop::file("write", &own.path, &fault))?;
        }
        for beside in self.staged.iter_mut().filter_map(|own| own.beside.as_mut()) {
            beside.settle();
        }
        Ok(())
    }
}

impl Beside {
    fn put(&mut self) -> io::Result<()> {
        if self.place.exists() {
            fs::hard_link(&self.place, &self.old)
                .or_else(|_| fs::rename(&self.place, &self.old))?;
            self.is_kept = true;
        }
        fs::rename(&self.new, &self.place)?;
        self.is_put = true;
        Ok(())
    }

    /// Nothing is taken back from here on.
    fn settle(&mut self) {
        if self.is_kept {
            let _ = fs::remove_file(&self.old);
        }
        (self.is_put, self.is_kept) = (false, false);
    }
}

/// What was not settled is taken back.
impl Drop for Beside {
    fn drop(&mut self) {
        if self.is_kept {
            let _ = fs::rename(&self.old, &self.place);
            // Two links to one file are both left by that.
            let _ = fs::remove_file(&self.old);
        } else if self.is_put {
            let _ = fs::remove_file(&self.place);
        }
        let _ = fs::remove_file(&self.new);
    }
}

/// The bytes in a new file in the folder of their place, with the rights of the file that was there.
fn beside(path: &Path, number: usize, bytes: &[u8]) -> io::Result<Option<Beside>> {
    let found = fs::metadata(path);
    if let Ok(found) = &found {
        if found.is_file() || found.is_dir() {
            // A folder, or a file that may not be written, has its fault here.
            OpenOptions::new().write(true).open(path)?;
        } else {
            return Ok(None);
        }
    }
    let place = match &found {
        Ok(_) => fs::canonicalize(path)?,
        Err(_) => path.to_owned(),
    };
    let name = place.file_name().unwrap_or_default().to_string_lossy();
    let near =
        |what: &str| place.with_file_name(format!(".{name}.{what}-{}-{number}", process::id()));
    let own = Beside {
        new: near("new"),
        old: near("old"),
        place,
        is_kept: false,
        is_put: false,
    };
    let mut file = File::create_new(&own.new)?;
    if let Ok(found) = found {
        file.set_permissions(found.permissions())?;
    }
    file.write_all(bytes)?;
    Ok(Some(own))
}

fn written(path: &Path, bytes: &[u8]) -> io::Result<()> {
    OpenOptions::new().write(true).open(path)?.write_all(bytes)
}
