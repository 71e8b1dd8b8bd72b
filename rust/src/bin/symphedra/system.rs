//! The calls to the operating system that have no safe form: mapping, allocation, signals.
//! The command's only file with `unsafe`.

use memmap2::{Mmap, MmapMut, MmapOptions};
use std::ffi::CString;
use std::fs::File;
use std::io;
use std::os::fd::AsRawFd;
use std::os::unix::ffi::OsStrExt;
use std::path::Path;
use std::ptr;
use std::sync::atomic::{AtomicPtr, Ordering};

/// Maps `len` bytes for reading.
///
/// A mapped file can change under its reader. The caller holds a shared lock and compares length and
/// time of change afterwards, and `on_bus` ends the process where pages have gone. What that leaves
/// open: a program that ignores the lock and writes while the library reads. Then the answer may be
/// of neither state of the file; it is thrown away if the time of change moved.
pub fn map(file: &File, len: usize) -> io::Result<Mmap> {
    // SAFETY: the bytes are plain numbers to the library; changes by others are handled as said above.
    unsafe { MmapOptions::new().len(len).map(file) }
}

/// Maps `len` bytes for reading and writing, shared with the file.
pub fn map_mut(file: &File, len: usize) -> io::Result<MmapMut> {
    // SAFETY: as for `map`; the caller holds an exclusive lock, or the file is new and its own.
    unsafe { MmapOptions::new().len(len).map_mut(file) }
}

/// Gives the file `len` bytes of real disk, so that a full disk shows here and not at a store.
pub fn allocate(file: &File, len: usize) -> io::Result<()> {
    let len = libc::off_t::try_from(len).map_err(|_| io::Error::from_raw_os_error(libc::EFBIG))?;
    // SAFETY: the descriptor is open as long as `file` lives; no memory is passed.
    match unsafe { libc::posix_fallocate(file.as_raw_fd(), 0, len) } {
        0 => Ok(()),
        error => Err(io::Error::from_raw_os_error(error)),
    }
}

/// A mapping's address, to ask how far a copy into it has come.
#[derive(Clone, Copy)]
pub struct Pages {
    start: usize,
    len: usize,
}

impl Pages {
    pub fn of(map: &MmapMut) -> Self {
        Self { start: map.as_ptr() as usize, len: map.len() }
    }

    /// Whether the page that holds byte `at` is in memory: in a new file it is once it was stored to.
    pub fn in_memory(self, at: usize) -> bool {
        if at >= self.len {
            return false;
        }
        // SAFETY: no memory is passed.
        let page = unsafe { libc::sysconf(libc::_SC_PAGESIZE) };
        let page = usize::try_from(page).unwrap_or(4096);
        let mut answer = 0u8;
        // SAFETY: one page gives one byte, which `answer` is; mincore reads no byte of the page and
        // fails by itself where nothing is mapped.
        let failed = unsafe {
            libc::mincore(((self.start + at) / page * page) as *mut libc::c_void, 1, &mut answer)
        };
        failed == 0 && answer & 1 == 1
    }
}

/// The unfinished file, to be removed if a signal ends the process.
static UNFINISHED: AtomicPtr<libc::c_char> = AtomicPtr::new(ptr::null_mut());

/// Names the unfinished file, or none.
pub fn set_unfinished(path: Option<&Path>) {
    let name = path.and_then(|path| CString::new(path.as_os_str().as_bytes()).ok());
    // The string is never freed: a handler may be reading it.
    UNFINISHED.store(name.map_or(ptr::null_mut(), CString::into_raw), Ordering::SeqCst);
}

/// Says whether there was one.
fn remove_unfinished() -> bool {
    let name = UNFINISHED.swap(ptr::null_mut(), Ordering::SeqCst);
    if !name.is_null() {
        // SAFETY: a string of `set_unfinished`, never freed; unlink may be called in a handler.
        unsafe { libc::unlink(name) };
    }
    !name.is_null()
}

/// A mapped page can't be had: the file shrank, or the disk failed or is full.
extern "C" fn on_bus(_: libc::c_int) {
    const LOST: &str =
        "symphedra: a mapped file lost its pages: it was cut short meanwhile, or the \
        disk failed or is full; ";
    let then = if remove_unfinished() {
        "nothing was written\n"
    } else {
        "check it with `symphedra scan`, as an upgrade may have been cut short\n"
    };
    // SAFETY: write and _exit may be called in a handler; the texts are static.
    unsafe {
        libc::write(2, LOST.as_ptr().cast(), LOST.len());
        libc::write(2, then.as_ptr().cast(), then.len());
        libc::_exit(2);
    }
}

/// Someone ends the process: tidy up, then end as the signal would have.
extern "C" fn on_end(signal: libc::c_int) {
    remove_unfinished();
    // SAFETY: both may be called in a handler; the signal comes when this one returns.
    unsafe {
        libc::signal(signal, libc::SIG_DFL);
        libc::raise(signal);
    }
}

/// To be called once, at the start.
pub fn install_handlers() {
    // SAFETY: the handlers have the signature that C asks and call only what may be called in one.
    unsafe {
        libc::signal(libc::SIGBUS, on_bus as *const () as libc::sighandler_t);
        // A file above the limit on file sizes shall be an error, not the end.
        libc::signal(libc::SIGXFSZ, libc::SIG_IGN);
        for signal in [libc::SIGINT, libc::SIGTERM, libc::SIGHUP] {
            let before = libc::signal(signal, on_end as *const () as libc::sighandler_t);
            if before == libc::SIG_IGN {
                libc::signal(signal, libc::SIG_IGN);
            }
        }
    }
}
