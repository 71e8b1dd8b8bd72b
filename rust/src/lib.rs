//! RIFF, RF64 and BW64 recordings: scanned, listed, judged, walked, upgraded and written.
//!
//! A safe crate over the proved C library `libsymphedra.a`. Any bytes may be given to any function:
//! it answers, or gives a [`Refusal`] with its number and words. A refused write or upgrade changes
//! no byte. Nothing here panics.
//!
//! The build takes the library from the folder `SYMPHEDRA_LIB_DIR`, or else from where
//! `scripts/archive` writes it. Without the feature `command` the crate has no dependencies.
//!
//! ```
//! use symphedra::{scan, upgrade, walk32, write_file, Fmt, Form, Refusal, Target};
//!
//! let fmt = Fmt::pcm(2, 48_000, 16)?;
//! let mut file = [0; 84];
//! write_file(Form::Riff, &fmt, b"", b"", &[1, 0, 255, 255], &mut file)?;
//!
//! for chunk in scan(&file)?.iter() {
//!     println!("{} at {}, {} bytes ({})", chunk.name, chunk.place, chunk.size, chunk.source);
//! }
//!
//! upgrade(&mut file, Target::Rf64)?;
//! assert_eq!(Form::of(&file), Some(Form::Rf64));
//! let walk = walk32(&file);
//! assert_eq!((walk.table.len(), walk.stop), (2, Some(Refusal::UnknownSize)));
//! # Ok::<(), Refusal>(())
//! ```
#![deny(clippy::unwrap_used, clippy::expect_used, clippy::panic, clippy::indexing_slicing)]

#[allow(unsafe_code)]
pub mod ffi;
mod records;
mod refusal;
mod table;

pub use records::{
    read_bext, read_chna, read_fmt, write_bext, write_chna, write_fmt, Bext, Chna, ChnaEntry, Fmt,
};
pub use refusal::Refusal;
pub use table::{Chunk, Form, Name, Source, Table};

/// The table of a whole file: its listing, once that is judged good.
///
/// ```
/// assert_eq!(symphedra::scan(b"not a recording"), Err(symphedra::Refusal::NotWave));
/// ```
pub fn scan(file: &[u8]) -> Result<Table, Refusal> {
    let mut table = Table::empty();
    Refusal::check(ffi::scan(file, table.words_mut()))?;
    Ok(table)
}

/// The listing of a file: its table whatever its format. Neither fmt nor the block size is judged;
/// [`judge`] does that over a listing, and [`scan`] is both in turn.
///
/// ```
/// use symphedra::{judge, list, scan, Refusal};
///
/// # let mut file = [0; 84];
/// # let fmt = symphedra::Fmt::pcm(2, 48_000, 16)?;
/// # symphedra::write_file(symphedra::Form::Riff, &fmt, b"", b"", &[1, 0, 255, 255], &mut file)?;
/// assert_eq!(judge(&file, &list(&file)?), Ok(()));
///
/// file[56] = 3; // the format tag, now that of float
/// assert_eq!(scan(&file), Err(Refusal::BadFmt));
/// let table = list(&file)?;
/// assert_eq!(table.len(), 3);
/// assert_eq!(judge(&file, &table), Err(Refusal::BadFmt));
/// # Ok::<(), Refusal>(())
/// ```
pub fn list(file: &[u8]) -> Result<Table, Refusal> {
    let mut table = Table::empty();
    Refusal::check(ffi::list(file, table.words_mut()))?;
    Ok(table)
}

/// Judges fmt and the block size of a file over its listing: [`Refusal::BadFmt`],
/// [`Refusal::RaggedAudio`], or, ahead of both, [`Refusal::StaleListing`] where `table` isn't what
/// [`list`] gives of the file now.
pub fn judge(file: &[u8], table: &Table) -> Result<(), Refusal> {
    judge_words(file, table.words())
}

/// [`judge`] over a listing's words that were kept somewhere: any words may be given, and what isn't
/// a fresh listing of the file is [`Refusal::StaleListing`]. Words behind the last row aren't looked at.
///
/// ```
/// use symphedra::{judge_words, list, Refusal};
///
/// # let mut file = [0; 84];
/// # let fmt = symphedra::Fmt::pcm(2, 48_000, 16)?;
/// # symphedra::write_file(symphedra::Form::Riff, &fmt, b"", b"", &[1, 0, 255, 255], &mut file)?;
/// let kept: Vec<u64> = list(&file)?.words().to_vec();
/// assert_eq!(judge_words(&file, &kept), Ok(()));
///
/// file[12..16].copy_from_slice(b"FREE"); // once JUNK
/// assert_eq!(judge_words(&file, &kept), Err(Refusal::StaleListing));
/// # Ok::<(), Refusal>(())
/// ```
pub fn judge_words(file: &[u8], words: &[u64]) -> Result<(), Refusal> {
    Refusal::check(ffi::judge(file, words))
}

/// What the 32-bit walk shows.
#[derive(Debug, Clone, PartialEq, Eq)]
pub struct Walk {
    /// The chunks ahead of the stop.
    pub table: Table,
    /// Why it stopped, or `None` at the end of the file.
    pub stop: Option<Refusal>,
}

/// The plain 32-bit walk, which knows nothing of ds64: every size is from [`Source::Own`].
///
/// ```
/// let walk = symphedra::walk32(b"RIFF\x06\0\0\0WAVEab");
/// assert!(walk.table.is_empty());
/// assert_eq!(walk.stop, Some(symphedra::Refusal::CutHeader));
/// ```
pub fn walk32(file: &[u8]) -> Walk {
    let mut table = Table::empty();
    let stop = Refusal::check(ffi::walk32(file, table.words_mut())).err();
    Walk { table, stop }
}

/// The sample count that an accepted file states, `None` where it has no fact chunk.
///
/// ```
/// assert_eq!(symphedra::sample_count(b""), Err(symphedra::Refusal::TooShort));
/// ```
pub fn sample_count(file: &[u8]) -> Result<Option<u64>, Refusal> {
    let mut words = [0; ffi::COUNT_WORDS];
    Refusal::check(ffi::sample_count(file, &mut words))?;
    let [there, count] = words;
    Ok((there == 1).then_some(count))
}

/// What a RIFF file can be upgraded to.
#[derive(Debug, Clone, Copy, PartialEq, Eq, Hash)]
pub enum Target {
    /// RF64.
    Rf64,
    /// BW64.
    Bw64,
}

/// Upgrades a RIFF file in place. A refusal changes no byte.
pub fn upgrade(file: &mut [u8], to: Target) -> Result<(), Refusal> {
    Refusal::check(match to {
        Target::Rf64 => ffi::upgrade_rf64(file),
        Target::Bw64 => ffi::upgrade_bw64(file),
    })
}

/// Writes a whole file to the front of `out`; answers its length. `bext` and `chna` are payloads,
/// empty for none. A refusal changes no byte.
///
/// ```
/// use symphedra::{write_file, written_len, Fmt, Form, Refusal};
///
/// let fmt = Fmt::pcm(1, 44_100, 8)?;
/// let audio = [128; 3];
/// let mut file = vec![0; written_len(0, 0, audio.len()).unwrap()];
/// assert_eq!(write_file(Form::Bw64, &fmt, b"", b"", &audio, &mut file)?, 84);
/// assert_eq!(write_file(Form::Bw64, &fmt, b"", b"", &audio, &mut []), Err(Refusal::ShortOutput));
/// # Ok::<(), Refusal>(())
/// ```
pub fn write_file(
    form: Form,
    fmt: &Fmt,
    bext: &[u8],
    chna: &[u8],
    audio: &[u8],
    out: &mut [u8],
) -> Result<usize, Refusal> {
    let write = match form {
        Form::Riff => ffi::write_riff,
        Form::Rf64 => ffi::write_rf64,
        Form::Bw64 => ffi::write_bw64,
    };
    records::written(|word| write(&fmt.words(), bext, chna, audio, out, word))
}

/// The room that [`write_file`] needs for runs of these lengths, in any form; `None` where no
/// `usize` holds it.
pub fn written_len(bext: usize, chna: usize, audio: usize) -> Option<usize> {
    let padded = |len: usize| len.checked_add(len % 2);
    let chunk = |len: usize| if len == 0 { Some(0) } else { padded(len)?.checked_add(8) };
    80_usize.checked_add(chunk(bext)?)?.checked_add(chunk(chna)?)?.checked_add(padded(audio)?)
}
