//! `symphedra write`: to a new file beside the target, which takes the target's name when it is whole
//! and on disk. On any refusal or trouble the target is as it was and the new file is gone.

use crate::args::WriteJob;
use crate::files::{cannot, Failure, Source, Trouble};
use crate::system;
use indicatif::{ProgressBar, ProgressDrawTarget, ProgressStyle};
use memmap2::MmapMut;
use std::fs::{self, File, Metadata, OpenOptions};
use std::io::{self, IsTerminal};
use std::path::{Path, PathBuf};
use std::sync::mpsc::{self, RecvTimeoutError};
use std::thread;
use std::time::{Duration, SystemTime};
use symphedra::{Fmt, Refusal};

pub fn write(job: &WriteJob) -> Result<(), Failure> {
    let audio = Source::open_whole(&job.audio).map_err(Trouble::of(&job.audio))?;
    let bext = payload(job.bext.as_deref())?;
    let chna = payload(job.chna.as_deref())?;
    let place = Place::find(&job.out)?;
    if place.metadata.as_ref().is_some_and(|there| audio.is_same_file(there)) {
        return Err(Trouble("it is the audio itself; name another file to write".into()).into());
    }

    let fmt = Fmt::pcm(job.channels, job.rate, job.bits)?;
    let (bext, chna) = (bytes(&bext), bytes(&chna));
    let write =
        |out: &mut [u8]| symphedra::write_file(job.form, &fmt, bext, chna, audio.bytes(), out);
    // With no room every other refusal comes first, before there is any file.
    match write(&mut []) {
        Err(Refusal::ShortOutput) => {}
        Err(refusal) => return Err(refusal.into()),
        Ok(_) => return Err(Trouble("the library wrote a file of no bytes".into()).into()),
    }
    let len = symphedra::written_len(bext.len(), chna.len(), audio.bytes().len())
        .ok_or_else(|| Trouble("it would be too long".into()))?;

    let new = NewFile::create(&place)?;
    new.fill(len, write)?;
    audio.check_unchanged().map_err(Trouble::of(&job.audio))?;
    Ok(new.finish(&place)?)
}

/// A record's payload from a file.
fn payload(path: Option<&Path>) -> Result<Option<Source>, Trouble> {
    let Some(path) = path else { return Ok(None) };
    let source = Source::open_whole(path).map_err(Trouble::of(path))?;
    if source.bytes().is_empty() {
        let trouble = Trouble("it is empty; leave the option out for no record".into());
        return Err(Trouble::of(path)(trouble));
    }
    Ok(Some(source))
}

fn bytes(source: &Option<Source>) -> &[u8] {
    source.as_ref().map_or(&[], Source::bytes)
}

/// Where the file goes: behind a symbolic link its target, so that the link stays.
struct Place {
    path: PathBuf,
    /// Of the file that is there now.
    metadata: Option<Metadata>,
}

impl Place {
    fn find(path: &Path) -> Result<Self, Trouble> {
        let path = match fs::canonicalize(path) {
            Ok(path) => path,
            Err(error) if error.kind() == io::ErrorKind::NotFound => path.to_owned(),
            Err(error) => return Err(cannot("can't write it")(error)),
        };
        let metadata = fs::metadata(&path).ok();
        match &metadata {
            Some(there) if there.is_dir() => Err(Trouble("it is a folder".into())),
            Some(there) if !there.is_file() => Err(Trouble("it is no regular file".into())),
            _ => Ok(Self { path, metadata }),
        }
    }

    fn folder(&self) -> &Path {
        match self.path.parent() {
            Some(folder) if !folder.as_os_str().is_empty() => folder,
            _ => Path::new("."),
        }
    }
}

/// A new file beside its place, removed unless it is finished.
struct NewFile {
    file: File,
    path: PathBuf,
    finished: bool,
}

impl NewFile {
    fn create(place: &Place) -> Result<Self, Trouble> {
        // A name that no other process takes, so that a signal may remove it at any time.
        let time = SystemTime::now().duration_since(SystemTime::UNIX_EPOCH).unwrap_or_default();
        let name = format!(".symphedra-{}-{:x}.part", std::process::id(), time.as_nanos());
        let path = place.folder().join(name);
        system::set_unfinished(Some(&path));
        let file = OpenOptions::new()
            .read(true)
            .write(true)
            .create_new(true)
            .open(&path)
            .map_err(cannot("can't make a file beside it"))?;
        let new = Self { file, path, finished: false };
        if let Some(there) = &place.metadata {
            new.file
                .set_permissions(there.permissions())
                .map_err(cannot("can't give the new file the old one's permissions"))?;
        }
        Ok(new)
    }

    /// Has `len` bytes written by the library, and flushes them.
    fn fill(
        &self,
        len: usize,
        write: impl FnOnce(&mut [u8]) -> Result<usize, Refusal>,
    ) -> Result<(), Failure> {
        system::allocate(&self.file, len).map_err(cannot("can't make room for it"))?;
        let mut map = system::map_mut(&self.file, len).map_err(cannot("can't map it"))?;
        let progress = Progress::new(len);
        if progress.watch(&mut map, write)? != len {
            return Err(Trouble("the library wrote another length than it should".into()).into());
        }
        Ok(progress.flush(&map).map_err(cannot("can't bring it to disk"))?)
    }

    /// Gives it its name, once all of it is on disk.
    fn finish(mut self, place: &Place) -> Result<(), Trouble> {
        self.file.sync_all().map_err(cannot("can't bring it to disk"))?;
        fs::rename(&self.path, &place.path).map_err(cannot("can't give it its name"))?;
        self.finished = true;
        system::set_unfinished(None);
        File::open(place.folder())
            .and_then(|folder| folder.sync_all())
            .map_err(cannot("it is whole, but its name may not be on disk yet"))
    }
}

impl Drop for NewFile {
    fn drop(&mut self) {
        if !self.finished {
            let _ = fs::remove_file(&self.path);
            system::set_unfinished(None);
        }
    }
}

/// A bar on standard error, when that is a terminal and it takes long: the copy is the first half of
/// it, the flush the second.
struct Progress {
    bar: ProgressBar,
    len: usize,
}

/// How long a write takes before it shows its bar.
const LONG: Duration = Duration::from_millis(400);
/// Bytes flushed between two moves of the bar.
const FLUSHED: usize = 16 << 20;
/// Bytes between two looks at how far the copy has come.
const COPIED: usize = 1 << 20;

impl Progress {
    fn new(len: usize) -> Self {
        let target = if io::stderr().is_terminal() {
            ProgressDrawTarget::stderr()
        } else {
            ProgressDrawTarget::hidden()
        };
        let bar = ProgressBar::with_draw_target(Some(2 * len as u64), target);
        if let Ok(style) = ProgressStyle::with_template("{msg} [{bar:40}] {percent}% {eta}") {
            bar.set_style(style.progress_chars("=> "));
        }
        Self { bar, len }
    }

    fn show(&self, doing: &'static str, position: usize) {
        self.bar.set_message(doing);
        self.bar.set_position(position as u64);
    }

    /// Runs the copy, which is one call of the library, while another thread looks which pages of the
    /// new file have come into memory.
    fn watch<T>(&self, map: &mut MmapMut, copy: impl FnOnce(&mut [u8]) -> T) -> T {
        let pages = system::Pages::of(map);
        let (copying, copied) = mpsc::channel::<()>();
        thread::scope(|scope| {
            scope.spawn(move || {
                let (mut at, mut pause) = (0, LONG);
                while copied.recv_timeout(pause) == Err(RecvTimeoutError::Timeout) {
                    pause = LONG / 4;
                    while at < self.len && pages.in_memory(at) {
                        at += COPIED;
                    }
                    self.show("writing", at.min(self.len));
                }
            });
            let answer = copy(map);
            drop(copying);
            answer
        })
    }

    fn flush(&self, map: &MmapMut) -> io::Result<()> {
        let mut at = 0;
        while at < self.len {
            let step = FLUSHED.min(self.len - at);
            map.flush_range(at, step)?;
            at += step;
            if self.bar.elapsed() > LONG {
                self.show("flushing", self.len + at);
            }
        }
        self.bar.finish_and_clear();
        Ok(())
    }
}
