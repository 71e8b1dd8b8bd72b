//! The C interface of `symphedra.h`: its declarations, and each function over slices.
//!
//! Numbers, runs and words are as the header says; [`crate`] has the typed functions. This is the
//! crate's only file with `unsafe`, and one reason holds for every block in it: a slice is valid for
//! its whole length (and aligned for its words), a `&mut` slice overlaps no other argument, the
//! library stays within the lengths it is given and keeps no pointer, and every value of the plain
//! integers that it stores is a good one.

mod c {
    /// A byte run and its length become two C parameters each.
    macro_rules! file_writers {
        ($($name:ident),*) => { extern "C" { $(
            pub fn $name(
                fmt: *const u64, fmt_words: usize,
                bext: *const u8, bext_len: usize,
                chna: *const u8, chna_len: usize,
                audio: *const u8, audio_len: usize,
                out: *mut u8, out_len: usize,
                written: *mut u64, written_words: usize,
            ) -> u32;
        )* } };
    }
    file_writers!(symphedra_write_riff, symphedra_write_rf64, symphedra_write_bw64);

    extern "C" {
        pub fn symphedra_scan(file: *const u8, len: usize, table: *mut u64, words: usize) -> u32;
        pub fn symphedra_list(file: *const u8, len: usize, table: *mut u64, words: usize) -> u32;
        pub fn symphedra_judge(file: *const u8, len: usize, table: *const u64, words: usize)
            -> u32;
        pub fn symphedra_walk32(file: *const u8, len: usize, table: *mut u64, words: usize) -> u32;
        pub fn symphedra_sample_count(
            file: *const u8,
            len: usize,
            out: *mut u64,
            words: usize,
        ) -> u32;
        pub fn symphedra_upgrade_rf64(file: *mut u8, len: usize) -> u32;
        pub fn symphedra_upgrade_bw64(file: *mut u8, len: usize) -> u32;
        pub fn symphedra_read_fmt(
            payload: *const u8,
            len: usize,
            record: *mut u64,
            words: usize,
        ) -> u32;
        pub fn symphedra_read_bext(
            payload: *const u8,
            len: usize,
            out: *mut u64,
            words: usize,
        ) -> u32;
        pub fn symphedra_bext_parts(
            payload: *const u8,
            len: usize,
            out: *mut u64,
            words: usize,
        ) -> u32;
        pub fn symphedra_read_chna(
            payload: *const u8,
            len: usize,
            channels: u16,
            out: *mut u64,
            words: usize,
        ) -> u32;
        pub fn symphedra_chna_entry(
            payload: *const u8,
            len: usize,
            i: usize,
            out: *mut u64,
            words: usize,
        ) -> u32;
        pub fn symphedra_write_fmt(
            record: *const u64,
            record_words: usize,
            out: *mut u8,
            out_len: usize,
            written: *mut u64,
            written_words: usize,
        ) -> u32;
        pub fn symphedra_write_bext(
            description: *const u8,
            description_len: usize,
            originator: *const u8,
            originator_len: usize,
            reference: *const u8,
            reference_len: usize,
            date: *const u8,
            date_len: usize,
            time: *const u8,
            time_len: usize,
            time_reference: u64,
            version: u16,
            rest: *const u8,
            rest_len: usize,
            history: *const u8,
            history_len: usize,
            out: *mut u8,
            out_len: usize,
            written: *mut u64,
            written_words: usize,
        ) -> u32;
        pub fn symphedra_write_chna(
            tracks: u16,
            uids: u16,
            entries: *const u8,
            entries_len: usize,
            channels: u16,
            out: *mut u8,
            out_len: usize,
            written: *mut u64,
            written_words: usize,
        ) -> u32;
    }
}

/// Words of a table: the number of chunks, and four for each of 64.
pub const TABLE_WORDS: usize = 257;
/// Words of a sample count.
pub const COUNT_WORDS: usize = 2;
/// Words of a format record.
pub const FMT_WORDS: usize = 9;
/// Words that the bext reader gives.
pub const BEXT_WORDS: usize = 8;
/// Words of a bext payload's parts: place and length of each of seven.
pub const BEXT_PARTS_WORDS: usize = 14;
/// Words that the chna reader gives.
pub const CHNA_WORDS: usize = 3;
/// Words of an entry of a chna payload.
pub const CHNA_ENTRY_WORDS: usize = 5;

/// `symphedra_scan`.
pub fn scan(file: &[u8], table: &mut [u64]) -> u32 {
    // SAFETY: as this file's head says.
    unsafe { c::symphedra_scan(file.as_ptr(), file.len(), table.as_mut_ptr(), table.len()) }
}

/// `symphedra_list`.
pub fn list(file: &[u8], table: &mut [u64]) -> u32 {
    // SAFETY: as this file's head says.
    unsafe { c::symphedra_list(file.as_ptr(), file.len(), table.as_mut_ptr(), table.len()) }
}

/// `symphedra_judge`.
pub fn judge(file: &[u8], table: &[u64]) -> u32 {
    // SAFETY: as this file's head says.
    unsafe { c::symphedra_judge(file.as_ptr(), file.len(), table.as_ptr(), table.len()) }
}

/// `symphedra_walk32`.
pub fn walk32(file: &[u8], table: &mut [u64]) -> u32 {
    // SAFETY: as this file's head says.
    unsafe { c::symphedra_walk32(file.as_ptr(), file.len(), table.as_mut_ptr(), table.len()) }
}

/// `symphedra_sample_count`.
pub fn sample_count(file: &[u8], out: &mut [u64]) -> u32 {
    // SAFETY: as this file's head says.
    unsafe { c::symphedra_sample_count(file.as_ptr(), file.len(), out.as_mut_ptr(), out.len()) }
}

/// `symphedra_upgrade_rf64`.
pub fn upgrade_rf64(file: &mut [u8]) -> u32 {
    // SAFETY: as this file's head says.
    unsafe { c::symphedra_upgrade_rf64(file.as_mut_ptr(), file.len()) }
}

/// `symphedra_upgrade_bw64`.
pub fn upgrade_bw64(file: &mut [u8]) -> u32 {
    // SAFETY: as this file's head says.
    unsafe { c::symphedra_upgrade_bw64(file.as_mut_ptr(), file.len()) }
}

/// `symphedra_read_fmt`.
pub fn read_fmt(payload: &[u8], record: &mut [u64]) -> u32 {
    // SAFETY: as this file's head says.
    unsafe {
        c::symphedra_read_fmt(payload.as_ptr(), payload.len(), record.as_mut_ptr(), record.len())
    }
}

/// `symphedra_read_bext`.
pub fn read_bext(payload: &[u8], out: &mut [u64]) -> u32 {
    // SAFETY: as this file's head says.
    unsafe { c::symphedra_read_bext(payload.as_ptr(), payload.len(), out.as_mut_ptr(), out.len()) }
}

/// `symphedra_bext_parts`.
pub fn bext_parts(payload: &[u8], out: &mut [u64]) -> u32 {
    // SAFETY: as this file's head says.
    unsafe { c::symphedra_bext_parts(payload.as_ptr(), payload.len(), out.as_mut_ptr(), out.len()) }
}

/// `symphedra_read_chna`.
pub fn read_chna(payload: &[u8], channels: u16, out: &mut [u64]) -> u32 {
    // SAFETY: as this file's head says.
    unsafe {
        c::symphedra_read_chna(
            payload.as_ptr(),
            payload.len(),
            channels,
            out.as_mut_ptr(),
            out.len(),
        )
    }
}

/// `symphedra_chna_entry`.
pub fn chna_entry(payload: &[u8], i: usize, out: &mut [u64]) -> u32 {
    // SAFETY: as this file's head says.
    unsafe {
        c::symphedra_chna_entry(payload.as_ptr(), payload.len(), i, out.as_mut_ptr(), out.len())
    }
}

macro_rules! file_writer {
    ($name:ident, $c:ident) => {
        #[doc = concat!("`", stringify!($c), "`.")]
        pub fn $name(
            fmt: &[u64],
            bext: &[u8],
            chna: &[u8],
            audio: &[u8],
            out: &mut [u8],
            written: &mut [u64],
        ) -> u32 {
            // SAFETY: as this file's head says.
            unsafe {
                c::$c(
                    fmt.as_ptr(),
                    fmt.len(),
                    bext.as_ptr(),
                    bext.len(),
                    chna.as_ptr(),
                    chna.len(),
                    audio.as_ptr(),
                    audio.len(),
                    out.as_mut_ptr(),
                    out.len(),
                    written.as_mut_ptr(),
                    written.len(),
                )
            }
        }
    };
}
file_writer!(write_riff, symphedra_write_riff);
file_writer!(write_rf64, symphedra_write_rf64);
file_writer!(write_bw64, symphedra_write_bw64);

/// `symphedra_write_fmt`.
pub fn write_fmt(record: &[u64], out: &mut [u8], written: &mut [u64]) -> u32 {
    // SAFETY: as this file's head says.
    unsafe {
        c::symphedra_write_fmt(
            record.as_ptr(),
            record.len(),
            out.as_mut_ptr(),
            out.len(),
            written.as_mut_ptr(),
            written.len(),
        )
    }
}

/// `symphedra_write_bext`; the fields are those of [`crate::Bext`], empty for not set.
pub fn write_bext(bext: &BextFields<'_>, out: &mut [u8], written: &mut [u64]) -> u32 {
    // SAFETY: as this file's head says.
    unsafe {
        c::symphedra_write_bext(
            bext.description.as_ptr(),
            bext.description.len(),
            bext.originator.as_ptr(),
            bext.originator.len(),
            bext.reference.as_ptr(),
            bext.reference.len(),
            bext.date.as_ptr(),
            bext.date.len(),
            bext.time.as_ptr(),
            bext.time.len(),
            bext.time_reference,
            bext.version,
            bext.rest.as_ptr(),
            bext.rest.len(),
            bext.history.as_ptr(),
            bext.history.len(),
            out.as_mut_ptr(),
            out.len(),
            written.as_mut_ptr(),
            written.len(),
        )
    }
}

/// The parameters of `symphedra_write_bext`, of any lengths.
#[derive(Debug, Clone, Copy, Default)]
#[allow(missing_docs)]
pub struct BextFields<'a> {
    pub description: &'a [u8],
    pub originator: &'a [u8],
    pub reference: &'a [u8],
    pub date: &'a [u8],
    pub time: &'a [u8],
    pub time_reference: u64,
    pub version: u16,
    pub rest: &'a [u8],
    pub history: &'a [u8],
}

/// `symphedra_write_chna`.
pub fn write_chna(
    tracks: u16,
    uids: u16,
    entries: &[u8],
    channels: u16,
    out: &mut [u8],
    written: &mut [u64],
) -> u32 {
    // SAFETY: as this file's head says.
    unsafe {
        c::symphedra_write_chna(
            tracks,
            uids,
            entries.as_ptr(),
            entries.len(),
            channels,
            out.as_mut_ptr(),
            out.len(),
            written.as_mut_ptr(),
            written.len(),
        )
    }
}
