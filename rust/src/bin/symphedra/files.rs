//! Files lent to the library: opened, locked, mapped, and checked for changes meanwhile.

use crate::{show, system};
use memmap2::{Advice, Mmap};
use std::fmt;
use std::fs::{File, Metadata, OpenOptions, TryLockError};
use std::io;
use std::os::unix::fs::{MetadataExt, OpenOptionsExt};
use std::path::Path;
use symphedra::{Refusal, Target};

/// What went wrong with a file, outside the format's rules.
#[derive(Debug)]
pub struct Trouble(pub String);

impl Trouble {
    pub fn of(path: &Path) -> impl Fn(Trouble) -> Trouble + '_ {
        move |trouble| Trouble(format!("{}: {trouble}", show::path(path)))
    }
}

impl fmt::Display for Trouble {
    fn fmt(&self, f: &mut fmt::Formatter<'_>) -> fmt::Result {
        f.write_str(&self.0)
    }
}

/// Why a file was not upgraded or written.
pub enum Failure {
    Refused(Refusal),
    Trouble(Trouble),
}

impl From<Refusal> for Failure {
    fn from(refusal: Refusal) -> Self {
        Failure::Refused(refusal)
    }
}

impl From<Trouble> for Failure {
    fn from(trouble: Trouble) -> Self {
        Failure::Trouble(trouble)
    }
}

/// Makes an error of the system a trouble: what was tried, then why it failed.
pub fn cannot(what: &'static str) -> impl Fn(io::Error) -> Trouble {
    move |error| {
        let why = match error.kind() {
            io::ErrorKind::NotFound => "there is no such file".into(),
            io::ErrorKind::PermissionDenied => "permission denied".into(),
            io::ErrorKind::ReadOnlyFilesystem => "it lies on a read-only file system".into(),
            io::ErrorKind::StorageFull => "the disk is full".into(),
            io::ErrorKind::QuotaExceeded => "the disk quota is used up".into(),
            io::ErrorKind::FileTooLarge => "it would pass the limit on file sizes".into(),
            _ => error.to_string(),
        };
        Trouble(format!("{what}: {why}"))
    }
}

/// Opens a regular file and locks it. A lock that another program holds is a trouble; a file system
/// without locks is not.
fn open(path: &Path, write: bool) -> Result<(File, Metadata), Trouble> {
    // Without O_NONBLOCK a named pipe would hang here.
    let file = OpenOptions::new()
        .read(true)
        .write(write)
        .custom_flags(libc::O_NONBLOCK)
        .open(path)
        .map_err(cannot(if write { "can't open it for writing" } else { "can't open it" }))?;
    let metadata = file.metadata().map_err(cannot("can't tell its length"))?;
    if metadata.is_dir() {
        return Err(Trouble("it is a folder".into()));
    }
    if !metadata.is_file() {
        return Err(Trouble("it is no regular file, so it can't be mapped".into()));
    }
    let lock = if write { file.try_lock() } else { file.try_lock_shared() };
    if let Err(TryLockError::WouldBlock) = lock {
        return Err(Trouble("another program has it locked; try again when that is done".into()));
    }
    // The length again, now that others keep away.
    let metadata = file.metadata().map_err(cannot("can't tell its length"))?;
    Ok((file, metadata))
}

/// The length to map.
fn mappable(metadata: &Metadata) -> Result<usize, Trouble> {
    let len = isize::try_from(metadata.len()).ok().and_then(|len| usize::try_from(len).ok());
    len.ok_or_else(|| Trouble("it is too long to be mapped".into()))
}

fn check_length(file: &File, before: u64) -> Result<(), Trouble> {
    let now = file.metadata().map_err(cannot("can't tell its length"))?.len();
    if now == before {
        return Ok(());
    }
    let (before, now) = (show::separated(before), show::separated(now));
    Err(Trouble(format!("its length changed meanwhile, from {before} to {now} bytes")))
}

/// A file lent for reading.
pub struct Source {
    file: File,
    metadata: Metadata,
    /// `None` for an empty file, which can't be mapped.
    map: Option<Mmap>,
}

impl Source {
    /// Opened for a look at its headers, which are few and far between.
    pub fn open(path: &Path) -> Result<Self, Trouble> {
        Self::open_with(path, Advice::Random)
    }

    /// Opened to be read from front to end.
    pub fn open_whole(path: &Path) -> Result<Self, Trouble> {
        Self::open_with(path, Advice::Sequential)
    }

    fn open_with(path: &Path, advice: Advice) -> Result<Self, Trouble> {
        let (file, metadata) = open(path, false)?;
        let map = match mappable(&metadata)? {
            0 => None,
            len => Some(system::map(&file, len).map_err(cannot("can't map it"))?),
        };
        if let Some(map) = &map {
            let _ = map.advise(advice); // only a hint
        }
        Ok(Self { file, metadata, map })
    }

    pub fn bytes(&self) -> &[u8] {
        self.map.as_deref().unwrap_or_default()
    }

    pub fn len(&self) -> u64 {
        self.metadata.len()
    }

    /// Whether the file is still what it was when it was mapped, as far as length and time tell.
    pub fn check_unchanged(&self) -> Result<(), Trouble> {
        check_length(&self.file, self.metadata.len())?;
        let now = self.file.metadata().map_err(cannot("can't tell its time of change"))?;
        let time = |metadata: &Metadata| (metadata.mtime(), metadata.mtime_nsec());
        if time(&now) == time(&self.metadata) {
            Ok(())
        } else {
            Err(Trouble("it was changed while it was being read; try again".into()))
        }
    }

    pub fn is_same_file(&self, other: &Metadata) -> bool {
        (self.metadata.dev(), self.metadata.ino()) == (other.dev(), other.ino())
    }
}

/// Upgrades a file in place; it is on disk when this answers success.
pub fn upgrade(path: &Path, target: Target) -> Result<(), Failure> {
    let (file, metadata) = open(path, true)?;
    let len = mappable(&metadata)?;
    if len == 0 {
        return Ok(symphedra::upgrade(&mut [], target)?);
    }
    let mut map = system::map_mut(&file, len).map_err(cannot("can't map it"))?;
    let _ = map.advise(Advice::Random); // only a hint
    check_length(&file, metadata.len())?;
    symphedra::upgrade(&mut map, target)?;
    let unsure = cannot("it was upgraded, but the disk may not have all of it");
    map.flush().map_err(&unsure)?;
    file.sync_all().map_err(&unsure)?;
    Ok(check_length(&file, metadata.len())?)
}
